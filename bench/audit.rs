// How long the shared audit takes at N = 64, 512 and 4,096, with every cell in use, half of them, and none; then with sparse numbers, with
// crowded ones, and with numbers for which the tables give up and a sort decides. The yardstick is Rust's sort_unstable on as many keys,
// twice (tickets and order numbers). Built and run by bench/run.
mod common;

use common::{both, next, shuffled, By, Row};
use std::hint::black_box;

extern "C" {
    fn wastelquib_store_audit(w: *const u64, len: usize, cells: u64, free: u64, counter: u64, used: u64, spare: u64) -> bool;
}

// The words that are zero in a cell in use, and in a free one.
const MASKS: [u64; 2] = [240, 239];

struct Memory {
    words: Vec<u64>,
    // Cells, top of the free stack, counter.
    store: [u64; 3],
}

fn decided(m: &Memory) -> By {
    common::decided(&m.words, m.store[2], MASKS[0])
}

fn audit(m: &Memory) -> bool {
    let [cells, free, counter] = m.store;
    unsafe { wastelquib_store_audit(m.words.as_ptr(), m.words.len(), cells, free, counter, MASKS[0], MASKS[1]) }
}

// Memory of n cells, the first `used` of a shuffled order in use, with shuffled tickets; the others in the free stack.
fn memory(n: usize, used: usize, row: &Row, seed: &mut u64) -> Memory {
    let order = shuffled(n, seed);
    let mut w = vec![0u64; 8 * n];
    for (i, &c) in order.iter().take(used).enumerate() {
        w[8 * c] = row[i];
        w[8 * c + 1] = row[i];
        w[8 * c + 2] = next(seed);
        w[8 * c + 3] = next(seed);
    }
    let mut top = 4096;
    for &c in order.iter().skip(used) {
        w[8 * c + 4] = top;
        top = c as u64;
    }
    Memory { words: w, store: [n as u64, top, row.last().map_or(1, |last| last + 1)] }
}

// One row of the table; what is to tell that numbers differ.
fn measure(mut m: Memory, used: usize, kind: &str, by: By) {
    let n = m.words.len() / 8;
    m.words[8 * n - 1] = 1;
    assert!(!audit(&m), "the audit passes broken memory");
    m.words[8 * n - 1] = 0;
    assert!(audit(&m), "the audit refuses sound memory");
    assert_eq!(decided(&m), by, "{kind} memory is decided in another way");
    let (ours, sorts) = both((200_000 / n) as u32, || { black_box(audit(black_box(&m))); }, common::sorts(&m.words, 2));
    println!("{n} {used} {kind} {ours:.0} {:.1} {sorts:.0} {}", ours / n as f64, common::ratio(used, ours, sorts));
}

fn main() {
    let mut seed = 88172645463325252u64;
    let seed = &mut seed;
    println!("cells in_use memory audit_ns ns_per_cell sorts_ns ratio");
    for n in [64usize, 512, 4096] {
        for used in [n, n / 2, 0] {
            measure(memory(n, used, &common::following(used), seed), used, "plain", By::Tables);
        }
        for used in [n, n / 2] {
            let row = common::sparse(used, seed);
            measure(memory(n, used, &row, seed), used, "sparse", By::Tables);
            measure(memory(n, used, &common::crowded(used), seed), used, "crowded", By::Scattered);
            let at = *seed;
            let row = common::colliding(used, &|row| decided(&memory(n, used, row, &mut { at })) == By::Sort);
            measure(memory(n, used, &row, seed), used, "colliding", By::Sort);
        }
    }
}
