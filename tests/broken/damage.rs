// The damages: one word of head or memory changed, two words swapped, or memory of another length.

use crate::doors::Engine;
use crate::rules::LAST_TICK;

// The values that word i is given: edges of every range, neighbours of the old value, what the same word of other cells
// holds, and single digits turned. A word beyond the last cell gets three values.
pub fn values<E: Engine>(e: &E, i: usize) -> Vec<u64> {
    let old = e.get(i);
    if i >= e.size() - e.rest().len() {
        return vec![0, u64::MAX, old.wrapping_add(1)];
    }
    let [cells, _, counter] = e.store();
    let mut all = vec![0, 1, 2, 8, 9, old.wrapping_add(1), old.wrapping_sub(1), 4095, 4096, 4097, cells - 1, cells, cells + 1];
    all.extend([counter, counter - 1, counter.wrapping_add(1), 65534, 65535, 65536, LAST_TICK, LAST_TICK + 1, 1 << 63, u64::MAX - 1, u64::MAX]);
    let head = e.head_size();
    if i >= head {
        let field = (i - head) % 8;
        all.extend((0..cells as usize).map(|c| e.get(head + 8 * c + field)));
    }
    all.extend((0..e.bits(i)).map(|b| old ^ 1 << b));
    all.sort_unstable();
    all.dedup();
    all.retain(|&x| x != old);
    all
}

// The pairs of words that are swapped: all of the memory and of the head's numbers with each other, and each end of a slot with a few others. Of the
// words beyond the last cell only the first.
pub fn swaps<E: Engine>(e: &E) -> Vec<(usize, usize)> {
    let size = e.size() - e.rest().len().saturating_sub(1);
    let plain = |i: &usize| e.bits(*i) == 64 || e.get(*i) != 4096;
    let chosen: Vec<usize> = (0..size).filter(plain).collect();
    let mut all = Vec::new();
    for (n, &i) in chosen.iter().enumerate() {
        all.extend(chosen[n + 1..].iter().map(|&j| (i, j)));
    }
    let ends: Vec<usize> = (0..size).filter(|&i| e.bits(i) == 16).collect();
    for &i in ends.iter().filter(|&&i| e.get(i) != 4096) {
        all.extend(ends.iter().map(|&j| (i.min(j), i.max(j))));
    }
    all.sort_unstable();
    all.dedup();
    all.retain(|&(i, j)| e.get(i) != e.get(j));
    all
}

// The same head with memory of other lengths: shorter and longer by single words and by whole cells, with zeros and with what the first cell holds.
pub fn lengths<E: Engine>(e: &E) -> Vec<E> {
    let len = e.words().len();
    let mut all = Vec::new();
    let largest = if len < 24 { 8 * 65536 } else { 8 * 4097 + 1 };
    for l in (0..=len + 17).chain([8 * 4096, 8 * 4097, largest]).filter(|&l| l != len) {
        let mut other = e.clone();
        other.words_mut().resize(l, 0);
        all.push(other.clone());
        for i in len..l.min(len + 17) {
            other.words_mut()[i] = e.words()[i % 8];
        }
        all.push(other);
    }
    all
}

// The same with `cells` as the length has it, so that other rules must find what is wrong.
pub fn recounted<E: Engine>(all: &[E], cells: usize) -> Vec<E> {
    let mut others = Vec::new();
    for e in all {
        let mut other = e.clone();
        other.set(cells, e.words().len() as u64 / 8);
        others.push(other);
    }
    others
}
