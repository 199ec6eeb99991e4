// The ready queue's calls on a plain list, with the heap's positions beside it.

use crate::doors::Call;
use crate::lent::Lent;
use crate::model::{accepted, applying, no_such, refusal, told, Expected, Plain};
use crate::queue_door::Queue;

// The heap has the cells by position.
pub struct Model {
    plain: Plain,
    arity: usize,
    heap: Vec<u64>,
}

impl Model {
    pub fn read(q: &Queue) -> Model {
        let n = &q.numbers;
        let heap = (0..n[1] as usize).map(|p| q.words[8 * p + 6]).collect();
        Model { plain: Plain::read(&q.words, n[3], n[4]), arity: n[0] as usize, heap }
    }

    // A queue after set-up.
    pub fn fresh(cells: u64, arity: u64) -> Model {
        let plain = Plain { cells: vec![None; cells as usize], free: (0..cells).rev().collect(), counter: 1 };
        Model { plain, arity: arity as usize, heap: Vec::new() }
    }

    // Head and memory by the layout, over the words that are lent.
    pub fn write(&self, words: &Lent<u64>) -> Queue {
        let numbers = [self.arity as u64, self.heap.len() as u64, self.plain.cells.len() as u64, self.plain.top(), self.plain.counter];
        let mut words = words.clone();
        self.plain.write(&mut words);
        for (p, &c) in self.heap.iter().enumerate() {
            words[8 * p + 6] = c;
            words[8 * c as usize + 5] = p as u64;
        }
        Queue { numbers: Lent::of(&numbers), words }
    }

    // Whether the entry at position p is before the one at position q.
    fn before(&self, p: usize, q: usize) -> bool {
        self.plain.rank(self.heap[p]) < self.plain.rank(self.heap[q])
    }

    fn parent(&self, p: usize) -> usize {
        (p - 1) / self.arity
    }

    // Rises past each parent that it is before; whether it rose.
    fn rise(&mut self, mut p: usize) -> bool {
        let start = p;
        while p > 0 && self.before(p, self.parent(p)) {
            let parent = self.parent(p);
            self.heap.swap(p, parent);
            p = parent;
        }
        p != start
    }

    // Sinks past its earliest child while that child is before it.
    fn sink(&mut self, mut p: usize) {
        loop {
            let children = self.arity * p + 1..(self.arity * p + self.arity + 1).min(self.heap.len());
            match children.min_by_key(|&q| self.plain.rank(self.heap[q])) {
                Some(child) if self.before(child, p) => {
                    self.heap.swap(p, child);
                    p = child;
                }
                _ => return,
            }
        }
    }

    fn settle(&mut self, p: usize) {
        if !self.rise(p) {
            self.sink(p);
        }
    }

    fn position(&self, cell: u64) -> usize {
        self.heap.iter().position(|&c| c == cell).expect("an entry of the heap")
    }

    // The last entry fills the hole that an entry leaves.
    fn vacate(&mut self, cell: u64) {
        let hole = self.position(cell);
        let last = self.heap.pop().expect("an entry");
        if hole < self.heap.len() {
            self.heap[hole] = last;
            self.settle(hole);
        }
    }

    fn first(&self) -> u64 {
        let first = self.plain.used().into_iter().min_by_key(|&c| self.plain.rank(c)).expect("an entry");
        assert_eq!(first, self.heap[0], "the heap's top is not before all others");
        first
    }

    fn causes(&self, call: Call) -> Vec<u64> {
        let [a, b, _] = call.args;
        let stale = !self.plain.names(a, b);
        let spent = self.plain.spent();
        match call.name {
            "put" => applying(&[(6, self.plain.free.is_empty()), (8, spent)]),
            "rekey" => applying(&[(7, stale), (8, spent)]),
            "remove" => applying(&[(7, stale)]),
            "take" | "first" => applying(&[(10, self.heap.is_empty())]),
            _ => no_such(call),
        }
    }
}

// One more than the parent steps from the last position to the top.
fn levels(n: usize, arity: usize) -> u64 {
    let mut p = match n {
        0 => return 0,
        _ => n - 1,
    };
    let mut levels = 1;
    while p > 0 {
        p = (p - 1) / arity;
        levels += 1;
    }
    levels
}

// The entries present before and after that stand at another position, at most the levels of the larger heap.
fn moves(before: &[u64], after: &[u64], arity: usize) -> u64 {
    let most = before.iter().chain(after).max().map_or(0, |&c| c as usize + 1);
    let mut stood = vec![None; most];
    before.iter().enumerate().for_each(|(p, &c)| stood[c as usize] = Some(p));
    let moved = after.iter().enumerate().filter(|&(p, &c)| stood[c as usize].is_some_and(|q| q != p)).count() as u64;
    assert!(moved <= levels(before.len().max(after.len()), arity), "more moves than levels");
    moved
}

pub fn expected(q: &Queue, call: Call, out: &Lent<u64>) -> Expected<Queue> {
    let mut m = Model::read(q);
    let causes = m.causes(call);
    if !causes.is_empty() {
        return refusal(q, out, causes);
    }
    let before = m.heap.clone();
    let [a, b, c] = call.args;
    let mut numbers = match call.name {
        "put" => {
            let cell = m.plain.add(a, b);
            m.heap.push(cell);
            m.rise(m.heap.len() - 1);
            vec![cell, m.plain.at(cell).ticket]
        }
        "rekey" => {
            m.plain.renew(a, c);
            m.settle(m.position(a));
            vec![]
        }
        "remove" => {
            m.vacate(a);
            vec![m.plain.hand_out(a).load]
        }
        _ => {
            let cell = m.first();
            let e = m.plain.at(cell);
            if call.name == "take" {
                m.vacate(cell);
                m.plain.hand_out(cell);
            }
            vec![e.key, cell, e.ticket, e.load]
        }
    };
    if call.name != "first" {
        numbers.push(moves(&before, &m.heap, m.arity));
    }
    accepted(told(1, &numbers), m.write(&q.words), out.clone())
}
