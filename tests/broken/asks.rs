// The calls that are made on a state which passes the rules: every edge of document 01's refusals, handles of all kinds, and outputs of many lengths.

use crate::doors::{call, Call, Engine};
use crate::queue_door::Queue;
use crate::rules::LAST_TICK;
use crate::wheel_door::Wheel;

// A call, and the length of the output that is lent with it.
#[derive(Clone, Copy)]
pub struct Ask {
    pub call: Call,
    pub out: usize,
}

// Output lengths: all up to two records and three words, and some larger.
const LENGTHS: [usize; 16] = [0, 1, 2, 3, 4, 5, 6, 7, 8, 9, 10, 11, 13, 18, 27, 66];

// So many handles that name entries, from all over the memory.
fn live<E: Engine>(e: &E, most: usize) -> Vec<[u64; 2]> {
    let cells = e.words().chunks_exact(8).enumerate();
    let all: Vec<[u64; 2]> = cells.filter(|(_, w)| w[0] != 0).map(|(c, w)| [c as u64, w[0]]).collect();
    let step = all.len().div_ceil(most).max(1);
    all.into_iter().step_by(step).collect()
}

// Handles that name nothing: another ticket, a cell that is free or that is none, also one whose words would be numbered as those of cell 0.
fn stale<E: Engine>(e: &E) -> Vec<[u64; 2]> {
    let [cells, free, counter] = e.store();
    let mut all = vec![[cells, 1], [cells, 0], [4096, 1], [1 << 61, e.words()[0]], [u64::MAX, e.words()[0]], [0, 0], [0, counter]];
    if free < cells {
        all.extend([[free, 0], [free, 1], [free, counter]]);
    }
    for [c, k] in live(e, 2) {
        all.extend([[c, k + 1], [c, k - 1], [c + cells, k], [c + 4096, k]]);
    }
    all.retain(|&[c, k]| c >= cells || k == 0 || e.words()[8 * c as usize] != k);
    all
}

fn of(name: &'static str, args: [u64; 3]) -> Ask {
    Ask { call: call(name, args), out: 5 }
}

pub fn of_wheel(v: &Wheel) -> Vec<Ask> {
    let clock = v.numbers[0];
    let live = live(v, 5);
    let mut ticks = vec![clock, clock + 1, clock.saturating_sub(1), clock + 63, clock + 4200, LAST_TICK, LAST_TICK + 1, u64::MAX];
    for h in &live {
        let deadline = v.words[8 * h[0] as usize + 2];
        ticks.extend([deadline, deadline.saturating_sub(1)]);
    }
    let mut asks = vec![of("next wake", [0; 3])];
    asks.extend(ticks.iter().map(|&e| of("arm", [e, u64::MAX - e, 0])));
    for (i, h) in live.iter().enumerate() {
        asks.extend(ticks.iter().skip(i % 2).step_by(2).map(|&e| of("move", [h[0], h[1], e])));
        asks.push(of("cancel", [h[0], h[1], 0]));
    }
    for (i, h) in stale(v).iter().enumerate() {
        asks.extend(ticks.iter().skip(i % 4).step_by(4).map(|&e| of("move", [h[0], h[1], e])));
        asks.push(of("cancel", [h[0], h[1], 0]));
    }
    for (i, &target) in ticks.iter().enumerate() {
        let lengths = LENGTHS.iter().skip(i % 2).step_by(2).copied().chain([v.words.len() / 2 + 3]);
        asks.extend(lengths.map(|out| Ask { call: call("advance", [target, 0, 0]), out }));
    }
    asks
}

pub fn of_queue(q: &Queue) -> Vec<Ask> {
    let live = live(q, 8);
    let mut keys = vec![0, 1, 5, u64::MAX - 1, u64::MAX];
    for h in live.iter().take(4) {
        let key = q.words[8 * h[0] as usize + 2];
        keys.extend([key, key.saturating_sub(1), key.saturating_add(1)]);
    }
    let mut asks = vec![of("take", [0; 3]), of("first", [0; 3])];
    asks.extend(keys.iter().map(|&k| of("put", [k, !k, 0])));
    for (i, h) in live.iter().enumerate() {
        asks.extend(keys.iter().skip(i % 2).step_by(2).map(|&k| of("rekey", [h[0], h[1], k])));
        asks.push(of("remove", [h[0], h[1], 0]));
    }
    for h in stale(q) {
        asks.extend([of("rekey", [h[0], h[1], 5]), of("remove", [h[0], h[1], 0])]);
    }
    asks
}
