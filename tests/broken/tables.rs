// States for the two quick ways of the audit. Its tables take tickets and order numbers in one pass, and a sort decides where they give up:
// so numbers that may begin at one slot, tables as full as they get, and in each of them one number that stands twice, in cells beside each
// other and far apart. The look along the lists knows the order of equal deadlines where order numbers rise: so lists where they fall.

use crate::count::Count;
use crate::doors::Engine;
use crate::made::{self, Dice, Made};
use crate::rules::{place, DUE};
use crate::wheel_door::Wheel;

const TICKETS: &str = "tickets differ";
const ORDERS: &str = "order numbers differ";
const EQUALS: &str = "wheel: equal deadlines by rising order number";

// Rising numbers by their index, below 8,192: what they are, and which they are.
type Rising = (&'static str, Box<dyn Fn(u64) -> u64>);

fn rising(dice: &mut Dice) -> Vec<Rising> {
    let mut all: Vec<Rising> = vec![("numbers that follow each other", Box::new(|i| 1 + i))];
    for k in [10, 13, 16, 20, 32, 40, 51] {
        all.push(("numbers equal modulo a power of two", Box::new(move |i| 1 + (i << k))));
    }
    for odd in [1023, 1025, 8191, 8193, 40_503, 2_654_435_769, (1 << 51) - 1] {
        all.push(("multiples of an odd number", Box::new(move |i| (i + 1) * odd)));
    }
    for k in [10, 13, 20] {
        all.push(("runs a power of two apart", Box::new(move |i| 1 + i % 64 + (i / 64 << k))));
    }
    all.push(("numbers above 2^32", Box::new(|i| (i + 1 << 32) + i % 3)));
    all.push(("numbers near 2^64", Box::new(|i| u64::MAX - 8193 + i)));
    let mut any: Vec<u64> = (0..8192).map(|_| dice.next() / 2 + 1).collect();
    any.sort_unstable();
    all.push(("numbers far apart", Box::new(move |i| any[i as usize])));
    all
}

// Memory of n cells with these tickets; the order numbers are the tickets, or, where all were moved, later ones of the row, shuffled.
fn numbered(dice: &mut Dice, n: u64, free: u64, row: &dyn Fn(u64) -> u64, moved: bool) -> Made {
    let mut m = made::memory(dice, n, free);
    let mut turns: Vec<u64> = (0..n - free).collect();
    dice.shuffle(&mut turns);
    for (i, &c) in m.used.iter().enumerate() {
        m.words[8 * c as usize] = row(i as u64);
        m.words[8 * c as usize + 1] = if moved { row(n + turns[i]) } else { row(i as u64) };
    }
    m.counter = m.used.iter().map(|&c| m.words[8 * c as usize + 1]).max().unwrap_or(0) + 1;
    m
}

// Gives two cells one number: of tickets the smaller, of order numbers the larger, so that no ticket is above its order number.
fn doubled<E: Engine>(e: &E, field: usize, cells: [usize; 2]) -> E {
    let mut other = e.clone();
    let [x, y] = cells.map(|c| e.words()[8 * c + field]);
    let both = if field == 0 { x.min(y) } else { x.max(y) };
    cells.iter().for_each(|c| other.words_mut()[8 * c + field] = both);
    other
}

const BESIDE: &str = "a number twice, beside each other";
const FAR: &str = "a number twice, far apart";

// The state as it is, and with a ticket or an order number twice.
fn twice<E: Engine>(count: &mut Count, dice: &mut Dice, family: &'static str, e: &E, what: &str) {
    count.meets(&[family, BESIDE, FAR], e, None, &|| what.to_string());
    let used: Vec<usize> = (0..e.words().len() / 8).filter(|c| e.words()[8 * c] != 0).collect();
    let beside = dice.below(used.len() as u64 - 1) as usize;
    let far = dice.below(3) as usize;
    for (field, rule) in [(0, TICKETS), (1, ORDERS)] {
        for (pair, apart) in [([beside, beside + 1], BESIDE), ([far, used.len() - 1], FAR)] {
            let pair = pair.map(|i| used[i]);
            let other = doubled(e, field, pair);
            count.meets(&[family, apart], &other, Some(rule), &|| format!("{what}, cells {pair:?}, word {field}"));
        }
    }
}

// Of the largest memory, of the small tables at their fullest, and of sizes beside these.
const SIZES: [(u64, u64); 5] = [(4096, 0), (512, 0), (513, 0), (514, 2), (64, 0)];

pub fn numbers(count: &mut Count) {
    let mut dice = Dice(7_777_777_777);
    for (family, row) in rising(&mut dice) {
        for (n, free) in SIZES {
            for moved in [false, true] {
                let what = format!("{n} cells, {free} free, row {} to {}, moved {moved}", row(0), row(n - 1));
                let m = numbered(&mut dice, n, free, &row, moved);
                let wheel = made::wheel_in(&mut dice, m);
                twice(count, &mut dice, family, &wheel, &what);
                let m = numbered(&mut dice, n, free, &row, moved);
                let queue = made::queue_in(&mut dice, m);
                twice(count, &mut dice, family, &queue, &what);
            }
        }
    }
}

const CLOCK: u64 = 1000;
// The lists: two slots of level 2 and one of level 3, then the due list. Each of the slots has room for 4,096 deadlines.
const FIRST: [u64; 4] = [4096, 8192, 262_144, CLOCK];

// A list by its positions: each entry's deadline after the first that is possible there, and its rank by order number.
#[derive(Clone)]
struct Row {
    later: Vec<u64>,
    rank: Vec<u64>,
}

impl Row {
    fn new(len: u64, equal: bool, falls: bool) -> Row {
        let later = (0..len).map(|i| if equal { 0 } else { i * 37 % 4096 }).collect();
        Row { later, rank: (0..len).map(|i| if falls { len - 1 - i } else { i }).collect() }
    }
    // Gives two positions one deadline, and their ranks so that they rise or fall.
    fn pair(mut self, i: usize, j: usize, falls: bool) -> Row {
        self.later[j] = self.later[i];
        if (self.rank[i] > self.rank[j]) != falls {
            self.rank.swap(i, j);
        }
        self
    }
}

// The wheel of these rows; the last is the due list. Order numbers of one row follow each other, the rows in any order.
fn wheel_of(dice: &mut Dice, rows: &[Row; 4]) -> Wheel {
    let entries: u64 = rows.iter().map(|r| r.rank.len() as u64).sum();
    let mut m = made::memory(dice, entries + 2, 2);
    let mut lists = vec![Vec::new(); DUE + 1];
    let mut order = [0, 1, 2, 3];
    dice.shuffle(&mut order);
    let mut cells = m.used.clone().into_iter();
    let mut base = entries + 1;
    for l in order {
        for (later, rank) in rows[l].later.iter().zip(&rows[l].rank) {
            let c = cells.next().expect("as many cells as entries");
            let deadline = FIRST[l] + later;
            m.words[8 * c as usize + 1] = base + rank;
            m.words[8 * c as usize + 2] = deadline;
            lists[place(CLOCK, deadline)].push(c);
        }
        base += rows[l].rank.len() as u64;
    }
    m.counter = base;
    made::wheel_of(m, CLOCK, &lists)
}

pub fn lists(count: &mut Count) {
    let mut dice = Dice(99_999_999_977);
    for len in [3, 16, 120, 1000] {
        let rises = Row::new(len, false, false);
        let due = Row::new(len, true, false);
        let plain = [rises.clone(), rises.clone(), rises, due];
        let last = len as usize - 1;
        // Which lists fall, as digits; the due list's deadlines are equal.
        for falling in 0..16 {
            let mut rows = plain.clone();
            (0..4).filter(|l| falling >> l & 1 == 1).for_each(|l| rows[l] = Row::new(len, l == 3, true));
            let v = wheel_of(&mut dice, &rows);
            let broken = (falling >= 8).then_some(EQUALS);
            count.meets(&["lists along which order numbers fall"], &v, broken, &|| format!("{len} in each list, falling {falling}"));
            for l in 0..3 {
                // One list more, of equal deadlines; then one with two equal deadlines, beside each other and far apart.
                for falls in [false, true] {
                    let mut made = |row: Row, family| {
                        let mut rows = rows.clone();
                        rows[l] = row;
                        let v = wheel_of(&mut dice, &rows);
                        let broken = (falling >= 8 || falls).then_some(EQUALS);
                        count.meets(&[family], &v, broken, &|| format!("{len} in each list, falling {falling}, list {l}, {falls}"));
                    };
                    made(Row::new(len, true, falls), "lists of equal deadlines");
                    made(rows[l].clone().pair(0, last, falls), "two equal deadlines far apart in a list");
                    made(rows[l].clone().pair(last - 1, last, falls), "two equal deadlines beside each other in a list");
                }
            }
        }
    }
}
