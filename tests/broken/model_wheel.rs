// The wheel's calls on a plain list, with the lists of its slots beside it.

use crate::doors::Call;
use crate::lent::Lent;
use crate::model::{accepted, applying, no_such, refusal, told, Expected, Plain};
use crate::rules::{digit, place, DUE, LAST_TICK, NO_CELL};
use crate::wheel_door::Wheel;

// Lists by number, the due list last; each has its cells from head to tail.
pub struct Model {
    plain: Plain,
    clock: u64,
    lists: Vec<Vec<u64>>,
}

// The highest position at which two ticks differ.
fn highest(a: u64, b: u64) -> Option<u32> {
    (0..6).rev().find(|&p| digit(a, p) != digit(b, p))
}

// Document 01's count for an entry with deadline e, for an advance from clock a to clock c.
fn moves(a: u64, c: u64, e: u64) -> u64 {
    let Some(p) = highest(a, e) else { return 0 };
    let from = if e > c { highest(c, e).expect("they differ") } else { 0 };
    (0..p).filter(|&q| q >= from && digit(e, q) != 0).count() as u64
}

// The wake tick of a slot: the clock's digits above its level, the slot there, zeros below.
fn wake_tick(clock: u64, list: usize) -> u64 {
    let level = list as u32 / 64;
    let above: u64 = (level + 1..6).map(|p| digit(clock, p) * 64u64.pow(p)).sum();
    above + list as u64 % 64 * 64u64.pow(level)
}

impl Model {
    pub fn read(v: &Wheel) -> Model {
        let n = &v.numbers;
        let plain = Plain::read(&v.words, n[4], n[5]);
        let mut lists = vec![Vec::new(); DUE + 1];
        for (i, list) in lists.iter_mut().enumerate() {
            let mut c = if i == DUE { n[1] } else { v.first[i] as u64 };
            while c != NO_CELL {
                list.push(c);
                c = v.words[8 * c as usize + 4];
            }
        }
        Model { plain, clock: n[0], lists }
    }

    // A wheel after set-up.
    pub fn fresh(cells: u64, start: u64) -> Model {
        let plain = Plain { cells: vec![None; cells as usize], free: (0..cells).rev().collect(), counter: 1 };
        Model { plain, clock: start, lists: vec![Vec::new(); DUE + 1] }
    }

    // Head and memory by the layout, over the words that are lent.
    pub fn write(&self, words: &Lent<u64>) -> Wheel {
        let empty = Lent::filled(NO_CELL as u16, DUE);
        let numbers = [self.clock, NO_CELL, NO_CELL, self.plain.cells.len() as u64, self.plain.top(), self.plain.counter];
        let mut v = Wheel { first: empty.clone(), last: empty, marks: Lent::filled(0, 6), numbers: Lent::of(&numbers), words: words.clone() };
        self.plain.write(&mut v.words);
        write_lists(&mut v, &self.lists);
        v
    }

    fn leave(&mut self, cell: u64) {
        let list = place(self.clock, self.plain.at(cell).key);
        self.lists[list].retain(|&c| c != cell);
    }

    fn join(&mut self, cell: u64) {
        let list = place(self.clock, self.plain.at(cell).key);
        self.lists[list].push(cell);
    }

    // The occupied slot with the smallest wake tick.
    fn earliest(&self) -> Option<(u64, usize)> {
        (0..DUE).filter(|&i| !self.lists[i].is_empty()).map(|i| (wake_tick(self.clock, i), i)).min()
    }

    // Next wake by each entry's place.
    fn next_wake(&self) -> Option<u64> {
        let ticks = self.plain.used().into_iter().map(|c| match place(self.clock, self.plain.at(c).key) {
            DUE => self.clock,
            list => wake_tick(self.clock, list),
        });
        ticks.min()
    }

    // Walks the wake ticks up to a clock: how many entries went to a lower place. Those that are handed out leave the due list.
    fn walk(&mut self, clock: u64, handed: &[u64]) -> u64 {
        let mut moved = 0;
        let mut leaves = vec![false; self.plain.cells.len()];
        handed.iter().for_each(|&c| leaves[c as usize] = true);
        self.lists[DUE].retain(|&c| !leaves[c as usize]);
        while let Some((tick, slot)) = self.earliest().filter(|w| w.0 <= clock) {
            self.clock = tick;
            for cell in std::mem::take(&mut self.lists[slot]) {
                moved += u64::from(self.plain.at(cell).key != tick);
                self.join(cell);
            }
            self.lists[DUE].retain(|&c| !leaves[c as usize]);
        }
        self.clock = clock;
        moved
    }

    // An advance: the kind of the answer, its numbers, and the records.
    fn advance(&mut self, target: u64, room: usize) -> (u64, [u64; 3], Vec<u64>) {
        let mut due = self.plain.used();
        due.retain(|&c| self.plain.at(c).key <= target);
        due.sort_by_key(|&c| self.plain.rank(c));
        let handed = &due[..room.min(due.len())];
        let next = due.get(room).map(|&c| self.plain.at(c).key);
        let clock = next.unwrap_or(target);
        let stood = self.plain.used();
        let count: u64 = stood.iter().map(|&c| moves(self.clock, clock, self.plain.at(c).key)).sum();
        assert_eq!(count, self.walk(clock, handed), "the formula and the walk differ");
        let mut records = Vec::new();
        for &c in handed {
            let e = self.plain.hand_out(c);
            records.extend([c, e.ticket, e.key, e.load]);
        }
        (1 + u64::from(next.is_some()), [handed.len() as u64, clock, count], records)
    }

    fn causes(&self, call: Call) -> Vec<u64> {
        let [a, b, c] = call.args;
        let stale = !self.plain.names(a, b);
        let deadline = if call.name == "arm" { a } else { c };
        let (late, low) = (deadline > LAST_TICK, deadline <= self.clock);
        let spent = self.plain.spent();
        match call.name {
            "arm" => applying(&[(5, late), (3, low), (6, self.plain.free.is_empty()), (8, spent)]),
            "move" => applying(&[(7, stale), (5, late), (3, low), (8, spent)]),
            "cancel" => applying(&[(7, stale)]),
            "advance" => applying(&[(5, a > LAST_TICK), (4, a < self.clock)]),
            "next wake" => Vec::new(),
            _ => no_such(call),
        }
    }
}

// Links the lists, and writes their ends and marks over those of empty ones.
pub fn write_lists(v: &mut Wheel, lists: &[Vec<u64>]) {
    for (i, list) in lists.iter().enumerate().filter(|(_, l)| !l.is_empty()) {
        for (j, &c) in list.iter().enumerate() {
            v.words[8 * c as usize + 4] = *list.get(j + 1).unwrap_or(&NO_CELL);
            v.words[8 * c as usize + 5] = if j == 0 { NO_CELL } else { list[j - 1] };
        }
        let (first, last) = (list[0], list[list.len() - 1]);
        if i == DUE {
            v.numbers[1..3].copy_from_slice(&[first, last]);
        } else {
            v.first[i] = first as u16;
            v.last[i] = last as u16;
            v.marks[i / 64] |= 1 << (i % 64);
        }
    }
}

pub fn expected(v: &Wheel, call: Call, out: &Lent<u64>) -> Expected<Wheel> {
    let mut m = Model::read(v);
    let causes = m.causes(call);
    if !causes.is_empty() {
        return refusal(v, out, causes);
    }
    let mut written = out.clone();
    let [a, b, c] = call.args;
    let answer = match call.name {
        "arm" => {
            let cell = m.plain.add(a, b);
            m.join(cell);
            told(1, &[cell, m.plain.at(cell).ticket])
        }
        "move" => {
            m.leave(a);
            m.plain.renew(a, c);
            m.join(a);
            told(1, &[])
        }
        "cancel" => {
            m.leave(a);
            told(1, &[m.plain.hand_out(a).load])
        }
        "advance" => {
            let (kind, numbers, records) = m.advance(a, out.len() / 4);
            written[..records.len()].copy_from_slice(&records);
            told(kind, &numbers)
        }
        _ => m.next_wake().map_or(told(1, &[]), |tick| told(2, &[tick])),
    };
    accepted(answer, m.write(&v.words), written)
}
