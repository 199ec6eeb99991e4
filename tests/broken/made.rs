// States written word by word at random, so that they keep to the rules and no more: calls need not lead to them. In a list of the wheel
// entries of different deadlines stand in any order, a heap is any that is ordered, cells and tickets are shuffled. The audit must pass
// every one of them.

use crate::lent::Lent;
use crate::model_wheel::write_lists;
use crate::queue_door::Queue;
use crate::rules::{place, LAST_TICK, NO_CELL};
use crate::wheel_door::Wheel;
use std::collections::{BTreeMap, BTreeSet};

// A small generator of numbers, so that runs repeat.
pub struct Dice(pub u64);

impl Dice {
    pub fn next(&mut self) -> u64 {
        self.0 ^= self.0 << 13;
        self.0 ^= self.0 >> 7;
        self.0 ^= self.0 << 17;
        self.0
    }
    pub fn below(&mut self, n: u64) -> u64 {
        self.next() % n
    }
    pub fn one_of<T: Copy>(&mut self, from: &[T]) -> T {
        from[self.below(from.len() as u64) as usize]
    }
    pub fn shuffle<T>(&mut self, xs: &mut [T]) {
        for i in (1..xs.len()).rev() {
            xs.swap(i, self.below(i as u64 + 1) as usize);
        }
    }
}

// Memory with a free stack and entries that have tickets, order numbers and loads: the words, the cells in use, the top of the stack, the
// counter.
pub struct Made {
    pub words: Vec<u64>,
    pub used: Vec<u64>,
    free: u64,
    pub counter: u64,
}

// Memory of n cells, of which so many are free.
pub fn memory(dice: &mut Dice, n: u64, free_cells: u64) -> Made {
    let rest = dice.below(8);
    let mut words = vec![0; (8 * n + rest) as usize];
    let mut cells: Vec<u64> = (0..n).collect();
    dice.shuffle(&mut cells);
    let used = cells.split_off(free_cells as usize);
    let mut free = NO_CELL;
    for c in cells {
        words[8 * c as usize + 4] = free;
        free = c;
    }
    // Order numbers have gaps and need not rise with the tickets; none is below its ticket, and they differ.
    let step = 1 + dice.below(3);
    for (i, &c) in used.iter().enumerate() {
        let at = 8 * c as usize;
        words[at] = 1 + i as u64;
        words[at + 1] = (1 + i as u64) * step + used.len() as u64 * dice.below(2) * step;
        words[at + 3] = dice.next();
    }
    let mut seen = BTreeSet::new();
    for &c in &used {
        let at = 8 * c as usize + 1;
        while !seen.insert(words[at]) {
            words[at] += 1;
        }
    }
    let counter = seen.last().unwrap_or(&0) + 1 + dice.below(3);
    (0..rest).for_each(|i| words[(8 * n + i) as usize] = dice.next());
    Made { words, used, free, counter }
}

// Shuffles a list, and then sorts each group of equal deadlines by order number where it stands.
fn any_order(dice: &mut Dice, words: &[u64], list: &mut [u64]) {
    dice.shuffle(list);
    let mut groups: BTreeMap<u64, Vec<usize>> = BTreeMap::new();
    for (at, &c) in list.iter().enumerate() {
        groups.entry(words[8 * c as usize + 2]).or_default().push(at);
    }
    for group in groups.values() {
        let mut cells: Vec<u64> = group.iter().map(|&at| list[at]).collect();
        cells.sort_by_key(|&c| words[8 * c as usize + 1]);
        group.iter().zip(cells).for_each(|(&at, c)| list[at] = c);
    }
}

pub fn wheel(dice: &mut Dice, n: u64, free_cells: u64) -> Wheel {
    let m = memory(dice, n, free_cells);
    wheel_in(dice, m)
}

pub fn wheel_in(dice: &mut Dice, mut m: Made) -> Wheel {
    let far = dice.one_of(&[2, 70, 5000, 300_000, LAST_TICK]);
    let random = dice.next();
    let clock = dice.one_of(&[0, 1, 63, 64, 4095, LAST_TICK, LAST_TICK - 65, random % LAST_TICK]);
    let mut lists = vec![Vec::new(); 385];
    for &c in &m.used {
        let deadline = LAST_TICK.min(clock + dice.below(far));
        m.words[8 * c as usize + 2] = deadline;
        lists[place(clock, deadline)].push(c);
    }
    lists.iter_mut().for_each(|list| any_order(dice, &m.words, list));
    wheel_of(m, clock, &lists)
}

// The wheel of these lists, whose deadlines are in the memory.
pub fn wheel_of(m: Made, clock: u64, lists: &[Vec<u64>]) -> Wheel {
    let cells = m.words.len() as u64 / 8;
    let empty = Lent::filled(NO_CELL as u16, 384);
    let numbers = Lent::of(&[clock, NO_CELL, NO_CELL, cells, m.free, m.counter]);
    let mut v = Wheel { first: empty.clone(), last: empty, marks: Lent::filled(0, 6), numbers, words: Lent::of(&m.words) };
    write_lists(&mut v, lists);
    v
}

// Entries from the first on take any position whose parent is filled.
pub fn queue(dice: &mut Dice, n: u64, free_cells: u64) -> Queue {
    let m = memory(dice, n, free_cells);
    queue_in(dice, m)
}

pub fn queue_in(dice: &mut Dice, mut m: Made) -> Queue {
    let arity = 2 + dice.below(7);
    let far = dice.one_of(&[1, 3, 100, u64::MAX]);
    for &c in &m.used {
        m.words[8 * c as usize + 2] = dice.below(far);
    }
    let mut used = m.used.clone();
    used.sort_by_key(|&c| (m.words[8 * c as usize + 2], m.words[8 * c as usize + 1]));
    // The positions whose parent is filled, but they are not.
    let mut open = vec![0];
    for &c in &used {
        let p = open.swap_remove(dice.below(open.len() as u64) as usize);
        let child = arity as usize * p + 1;
        open.extend((child..child + arity as usize).take_while(|&p| p < used.len()));
        m.words[8 * p + 6] = c;
        m.words[8 * c as usize + 5] = p as u64;
    }
    let cells = m.words.len() as u64 / 8;
    Queue { numbers: Lent::of(&[arity, used.len() as u64, cells, m.free, m.counter]), words: Lent::of(&m.words) }
}
