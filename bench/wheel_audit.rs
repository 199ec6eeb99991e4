// How long the wheel's whole audit takes at N = 64, 512 and 4,096, with every cell in use, half of them, and none, deadlines below 10^3,
// 10^5 and 10^8 past the clock; then, for deadlines below 10^5, memory with sparse numbers, with crowded ones, with numbers for which the
// tables give up, and unrisen memory, in whose lists order numbers fall, so that a sort decides the order of equal deadlines. The
// yardstick is Rust's sort_unstable on bare keys, three times (tickets, order numbers, deadlines); it checks nothing. The door copies the
// head, 1.6 KB, at each call: the row "head" is the call with a head of no cells, which the audit refuses at once, so that the copy takes
// no longer than that. Built and run by bench/run.
mod common;

use common::{both, next, shuffled, By, Row};
use std::hint::black_box;

extern "C" {
    fn wastelquib_test_wheel_audit(
        w: *const u64, w_len: usize, first: *const u16, first_len: usize, last: *const u16, last_len: usize,
        marks: *const u64, marks_len: usize, numbers: *const u64, numbers_len: usize,
    ) -> u64;
    fn wastelquib_test_walked(
        w: *const u64, w_len: usize, first: *const u16, first_len: usize, last: *const u16, last_len: usize, numbers: *const u64, numbers_len: usize,
    ) -> u64;
}

struct Wheel {
    first: Vec<u16>,
    last: Vec<u16>,
    marks: [u64; 6],
    numbers: [u64; 6],
    words: Vec<u64>,
}

fn audit(v: &Wheel) -> u64 {
    let (f, l, m, n, w) = (&v.first, &v.last, &v.marks, &v.numbers, &v.words);
    unsafe {
        wastelquib_test_wheel_audit(w.as_ptr(), w.len(), f.as_ptr(), f.len(), l.as_ptr(), l.len(), m.as_ptr(), 6, n.as_ptr(), 6)
    }
}

const CLOCK: u64 = 1000;
const NO_CELL: u64 = 4096;

impl Wheel {
    fn empty(n: usize) -> Wheel {
        let numbers = [CLOCK, NO_CELL, NO_CELL, n as u64, NO_CELL, 1];
        Wheel { first: vec![4096; 384], last: vec![4096; 384], marks: [0; 6], numbers, words: vec![0; 8 * n] }
    }

    // Cell c joins the list of its place at the tail.
    fn join(&mut self, c: usize) {
        let differ = CLOCK ^ self.words[8 * c + 2];
        let level = (63 - differ.leading_zeros() as usize) / 6;
        let slot = (self.words[8 * c + 2] >> (6 * level)) as usize % 64;
        let i = 64 * level + slot;
        let tail = self.last[i] as u64;
        self.words[8 * c + 4] = NO_CELL;
        self.words[8 * c + 5] = tail;
        if tail == NO_CELL {
            self.first[i] = c as u16;
        } else {
            self.words[8 * tail as usize + 4] = c as u64;
        }
        self.last[i] = c as u16;
        self.marks[level] |= 1 << slot;
    }
}

// Deadlines of the entries, by the order in which they were moved.
fn deadlines(used: usize, horizon: u64, seed: &mut u64) -> Vec<u64> {
    (0..used).map(|_| CLOCK + 1 + next(seed) % horizon).collect()
}

// A wheel of n cells, as many of a shuffled order in use as there are deadlines: tickets as they were armed, and then all moved once in
// another order. Where it is unrisen, entries with the later order number stand first in a list: then no two deadlines may be equal.
fn wheel(n: usize, row: &Row, deadlines: &[u64], unrisen: bool, seed: &mut u64) -> Wheel {
    let used = deadlines.len();
    let mut v = Wheel::empty(n);
    let order = shuffled(n, seed);
    let mut moved: Vec<(usize, usize)> = shuffled(used, seed).into_iter().enumerate().collect();
    if unrisen {
        moved.reverse();
    }
    for (i, j) in moved {
        let c = order[j];
        v.words[8 * c] = row[j];
        v.words[8 * c + 1] = row[used + i];
        v.words[8 * c + 2] = deadlines[i];
        v.words[8 * c + 3] = next(seed);
        v.join(c);
    }
    for &c in order.iter().skip(used) {
        v.words[8 * c + 4] = v.numbers[4];
        v.numbers[4] = c as u64;
    }
    v.numbers[5] = row.last().map_or(1, |last| last + 1);
    v
}

fn decided(v: &Wheel) -> By {
    common::decided(&v.words, v.numbers[5], 192)
}

// What the walk along the lists tells: 2 where order numbers rise along each, 1 where they do not, so that a sort decides.
fn walked(v: &Wheel) -> u64 {
    let (f, l, n, w) = (&v.first, &v.last, &v.numbers, &v.words);
    unsafe { wastelquib_test_walked(w.as_ptr(), w.len(), f.as_ptr(), f.len(), l.as_ptr(), l.len(), n.as_ptr(), 6) }
}

// One row of the table; what is to tell that numbers differ, and what the walk along the lists is to tell.
fn measure(mut v: Wheel, used: usize, horizon: u64, memory: &str, by: By, look: u64) {
    let n = v.words.len() / 8;
    v.words[8 * n - 1] = 1;
    assert_eq!(audit(&v), 0, "the audit passes broken memory");
    v.words[8 * n - 1] = 0;
    assert_eq!(audit(&v), 1, "the audit refuses sound memory");
    assert_eq!((decided(&v), walked(&v)), (by, look), "{memory} memory is decided in another way");
    let (ours, sorts) = both((200_000 / n) as u32, || { black_box(audit(black_box(&v))); }, common::sorts(&v.words, 3));
    println!("{n} {used} {horizon} {memory} {ours:.0} {:.1} {sorts:.0} {}", ours / n as f64, common::ratio(used, ours, sorts));
}

fn main() {
    let mut seed = 88172645463325252u64;
    let seed = &mut seed;
    let none = Wheel::empty(0);
    assert_eq!(audit(&none), 0, "the audit passes a head with no cells");
    let copy = both(20_000, || { black_box(audit(black_box(&none))); }, || ()).0;
    println!("head {copy:.0}");
    println!("cells in_use horizon memory audit_ns ns_per_cell sorts_ns ratio");
    for n in [64usize, 512, 4096] {
        let half = n / 2;
        for (used, horizon) in [(n, 1000), (n, 100_000), (n, 100_000_000), (half, 1000), (half, 100_000), (half, 100_000_000), (0, 1)] {
            let due = deadlines(used, horizon, seed);
            measure(wheel(n, &common::following(2 * used), &due, false, seed), used, horizon, "plain", By::Tables, 2);
        }
        for used in [n, n / 2] {
            let horizon = 100_000;
            let due = deadlines(used, horizon, seed);
            let row = common::sparse(2 * used, seed);
            measure(wheel(n, &row, &due, false, seed), used, horizon, "sparse", By::Tables, 2);
            measure(wheel(n, &common::crowded(2 * used), &due, false, seed), used, horizon, "crowded", By::Scattered, 2);
            let at = *seed;
            let row = common::colliding(2 * used, &|row| decided(&wheel(n, row, &due, false, &mut { at })) == By::Sort);
            measure(wheel(n, &row, &due, false, seed), used, horizon, "colliding", By::Sort, 2);
            let apart = horizon / used as u64;
            let due: Vec<u64> = shuffled(used, seed).into_iter().map(|i| CLOCK + 1 + i as u64 * apart).collect();
            measure(wheel(n, &common::following(2 * used), &due, true, seed), used, horizon, "unrisen", By::Tables, 1);
        }
    }
}
