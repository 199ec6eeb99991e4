// What the benchmarks of the audits share: numbers that repeat, rows of tickets and order numbers, the doors of the audit's quick ways, and
// times.

use std::time::Instant;

extern "C" {
    // 0: an entry is broken, 1: the tables gave up, 2: they know that tickets and order numbers differ.
    fn wastelquib_test_tables(w: *const u64, w_len: usize, numbers: *const u64, numbers_len: usize, used: u64, scattered: u64) -> u64;
}

// What tells that tickets and order numbers differ: tables in which they are spread evenly, tables in which they are scattered as well, or
// a sort.
#[derive(Clone, Copy, PartialEq, Debug)]
pub enum By {
    Tables,
    Scattered,
    Sort,
}

// The mask says which words are zero in a cell in use.
pub fn decided(words: &[u64], counter: u64, unused: u64) -> By {
    let numbers = [words.len() as u64 / 8, counter];
    let tables = |scattered| unsafe { wastelquib_test_tables(words.as_ptr(), words.len(), numbers.as_ptr(), 2, unused, scattered) };
    match (tables(0), tables(1)) {
        (2, _) => By::Tables,
        (_, 2) => By::Scattered,
        _ => By::Sort,
    }
}

// A small generator of numbers, so that runs repeat.
pub fn next(x: &mut u64) -> u64 {
    *x ^= *x << 13;
    *x ^= *x >> 7;
    *x ^= *x << 17;
    *x
}

pub fn shuffled(n: usize, seed: &mut u64) -> Vec<usize> {
    let mut order: Vec<usize> = (0..n).collect();
    for i in (1..n).rev() {
        order.swap(i, (next(seed) % (i as u64 + 1)) as usize);
    }
    order
}

// Rising numbers, of which the first half are tickets and the others order numbers.
pub type Row = Vec<u64>;

// As calls without a pause give them.
pub fn following(len: usize) -> Row {
    (1..=len as u64).collect()
}

// With gaps of up to a million, as if most entries had gone again.
pub fn sparse(len: usize, seed: &mut u64) -> Row {
    let mut number = 0;
    (0..len).map(|_| { number += 1 + next(seed) % 1_000_000; number }).collect()
}

// Multiples of one of Fibonacci's numbers, which a spread by the golden ratio crowds, so that they have to be scattered.
pub fn crowded(len: usize) -> Row {
    (1..=len as u64).map(|i| i * 6765).collect()
}

// For which the tables give up, so that a sort decides: multiples of one number, the first for which the door says so.
pub fn colliding(len: usize, gives_up: &dyn Fn(&Row) -> bool) -> Row {
    let powers = [13, 20, 31, 32, 40, 48].map(|k| 1u64 << k);
    let beside = powers.iter().flat_map(|p| [p - 1, p + 1]);
    let rows = powers.iter().copied().chain(beside).map(|m| (1..=len as u64).map(|i| i * m).collect());
    rows.into_iter().find(|row| gives_up(row)).expect("no row of multiples makes the tables give up")
}

pub fn time<F: FnMut()>(turns: u32, f: &mut F) -> f64 {
    let start = Instant::now();
    for _ in 0..turns {
        f();
    }
    start.elapsed().as_nanos() as f64 / turns as f64
}

// The smallest of ten times of each side, in turns.
pub fn both<F: FnMut(), G: FnMut()>(turns: u32, mut f: F, mut g: G) -> (f64, f64) {
    let (mut a, mut b) = (f64::MAX, f64::MAX);
    for _ in 0..10 {
        a = a.min(time(turns, &mut f));
        b = b.min(time(turns, &mut g));
    }
    (a, b)
}

// The yardstick: Rust's sort_unstable on the bare words of these fields of the cells in use. It checks nothing.
pub fn sorts(words: &[u64], fields: usize) -> impl FnMut() {
    let used: Vec<usize> = (0..words.len() / 8).filter(|c| words[8 * c] != 0).collect();
    let keys: Vec<Vec<u64>> = (0..fields).map(|f| used.iter().map(|c| words[8 * c + f]).collect()).collect();
    move || {
        for k in &keys {
            let mut k = k.clone();
            k.sort_unstable();
            std::hint::black_box(&k);
        }
    }
}

// With no entry there is nothing to sort, and no ratio.
pub fn ratio(used: usize, ours: f64, sorts: f64) -> String {
    if used == 0 { "-".to_string() } else { format!("{:.2}", ours / sorts) }
}
