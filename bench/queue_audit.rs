// How long the ready queue's whole audit takes at N = 64, 512 and 4,096, with every cell in use, half of them, and none, at arities 2, 4
// and 8; then, at arity 4, memory with sparse numbers, with crowded ones, and with numbers for which the tables give up and a sort
// decides. The yardstick is Rust's sort_unstable on bare keys, twice (tickets and order numbers); it checks nothing. The head is five
// numbers, which the door reads. Built and run by bench/run.
mod common;

use common::{both, next, shuffled, By, Row};
use std::hint::black_box;

extern "C" {
    fn wastelquib_test_queue_audit(w: *const u64, w_len: usize, numbers: *const u64, numbers_len: usize) -> u64;
}

struct Queue {
    numbers: [u64; 5],
    words: Vec<u64>,
}

fn audit(q: &Queue) -> u64 {
    unsafe { wastelquib_test_queue_audit(q.words.as_ptr(), q.words.len(), q.numbers.as_ptr(), 5) }
}

// A queue of n cells, the first `used` of a shuffled order in use: tickets as they were put, and then all rekeyed once in another order.
// Keys are random; the entry put in at position p rises past each parent that it is before.
fn queue(n: usize, used: usize, row: &Row, arity: usize, seed: &mut u64) -> Queue {
    let mut w = vec![0u64; 8 * n];
    let order = shuffled(n, seed);
    for (p, j) in shuffled(used, seed).into_iter().enumerate() {
        let c = order[j];
        w[8 * c] = row[j];
        w[8 * c + 1] = row[used + p];
        w[8 * c + 2] = next(seed) % (8 * n as u64);
        w[8 * c + 3] = next(seed);
        let mut hole = p;
        while hole > 0 {
            let parent = w[8 * ((hole - 1) / arity) + 6] as usize;
            if (w[8 * parent + 2], w[8 * parent + 1]) <= (w[8 * c + 2], w[8 * c + 1]) {
                break;
            }
            w[8 * hole + 6] = parent as u64;
            hole = (hole - 1) / arity;
        }
        w[8 * hole + 6] = c as u64;
    }
    for p in 0..used {
        let c = w[8 * p + 6] as usize;
        w[8 * c + 5] = p as u64;
    }
    let mut top = 4096;
    for &c in order.iter().skip(used) {
        w[8 * c + 4] = top;
        top = c as u64;
    }
    let counter = row.last().map_or(1, |last| last + 1);
    Queue { numbers: [arity as u64, used as u64, n as u64, top, counter], words: w }
}

fn decided(q: &Queue) -> By {
    common::decided(&q.words, q.numbers[4], 144)
}

// One row of the table; what is to tell that numbers differ.
fn measure(mut q: Queue, used: usize, arity: usize, memory: &str, by: By) {
    let n = q.words.len() / 8;
    q.words[8 * n - 1] = 1;
    assert_eq!(audit(&q), 0, "the audit passes broken memory");
    q.words[8 * n - 1] = 0;
    assert_eq!(audit(&q), 1, "the audit refuses sound memory");
    assert_eq!(decided(&q), by, "{memory} memory is decided in another way");
    let (ours, sorts) = both((200_000 / n) as u32, || { black_box(audit(black_box(&q))); }, common::sorts(&q.words, 2));
    println!("{n} {used} {arity} {memory} {ours:.0} {:.1} {sorts:.0} {}", ours / n as f64, common::ratio(used, ours, sorts));
}

fn main() {
    let mut seed = 88172645463325252u64;
    let seed = &mut seed;
    println!("cells in_use arity memory audit_ns ns_per_cell sorts_ns ratio");
    for n in [64usize, 512, 4096] {
        for (used, arity) in [(n, 2), (n, 4), (n, 8), (n / 2, 2), (n / 2, 4), (n / 2, 8), (0, 4)] {
            measure(queue(n, used, &common::following(2 * used), arity, seed), used, arity, "plain", By::Tables);
        }
        for used in [n, n / 2] {
            let row = common::sparse(2 * used, seed);
            measure(queue(n, used, &row, 4, seed), used, 4, "sparse", By::Tables);
            measure(queue(n, used, &common::crowded(2 * used), 4, seed), used, 4, "crowded", By::Scattered);
            let at = *seed;
            let row = common::colliding(2 * used, &|row| decided(&queue(n, used, row, 4, &mut { at })) == By::Sort);
            measure(queue(n, used, &row, 4, seed), used, 4, "colliding", By::Sort);
        }
    }
}
