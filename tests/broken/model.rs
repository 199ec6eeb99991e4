// What a call must answer and leave, by document 01 and docs/LAYOUT.md alone: the part that both engines share. A state that passes the rules is read
// as a plain list, the call is made on the list, and the list is written down again word by word.

use crate::doors::{Call, Told};
use crate::lent::Lent;
use crate::rules::NO_CELL;

// The answer, the head and memory, and the output after a call. `causes` are all refusals that apply, in the document's order.
pub struct Expected<E> {
    pub told: Told,
    pub after: E,
    pub out: Lent<u64>,
    pub causes: Vec<u64>,
}

// The causes that apply, of some with their numbers in the document's order.
pub fn applying(all: &[(u64, bool)]) -> Vec<u64> {
    all.iter().filter(|c| c.1).map(|c| c.0).collect()
}

pub fn told(kind: u64, numbers: &[u64]) -> Told {
    let mut five = [0; 5];
    five[..numbers.len()].copy_from_slice(numbers);
    Told { kind, numbers: five }
}

// A refusal changes nothing; the first cause that applies is told.
pub fn refusal<E: Clone>(before: &E, out: &Lent<u64>, causes: Vec<u64>) -> Expected<E> {
    Expected { told: told(0, &causes[..1]), after: before.clone(), out: out.clone(), causes }
}

pub fn accepted<E>(told: Told, after: E, out: Lent<u64>) -> Expected<E> {
    Expected { told, after, out, causes: Vec::new() }
}

pub fn no_such(call: Call) -> ! {
    panic!("no model has the call {call:?}")
}

// An entry, beside its cell.
#[derive(Clone, Copy)]
pub struct Entry {
    pub ticket: u64,
    pub order: u64,
    pub key: u64,
    pub load: u64,
}

// The entries by their cells, the free stack with its top last, and the counter.
pub struct Plain {
    pub cells: Vec<Option<Entry>>,
    pub free: Vec<u64>,
    pub counter: u64,
}

impl Plain {
    pub fn read(words: &[u64], top: u64, counter: u64) -> Plain {
        let entry = |w: &[u64]| (w[0] != 0).then(|| Entry { ticket: w[0], order: w[1], key: w[2], load: w[3] });
        let cells = words.chunks_exact(8).map(entry).collect();
        let mut free = Vec::new();
        let mut c = top;
        while c != NO_CELL {
            free.push(c);
            c = words[8 * c as usize + 4];
        }
        free.reverse();
        Plain { cells, free, counter }
    }

    // Writes every whole cell but for what the engines add; the words beyond the last stay.
    pub fn write(&self, words: &mut [u64]) {
        for (w, cell) in words.chunks_exact_mut(8).zip(&self.cells) {
            w.fill(0);
            if let Some(e) = cell {
                w[..4].copy_from_slice(&[e.ticket, e.order, e.key, e.load]);
            }
        }
        for (i, &c) in self.free.iter().enumerate() {
            words[8 * c as usize + 4] = if i == 0 { NO_CELL } else { self.free[i - 1] };
        }
    }

    pub fn top(&self) -> u64 {
        *self.free.last().unwrap_or(&NO_CELL)
    }

    pub fn at(&self, cell: u64) -> Entry {
        self.cells[cell as usize].expect("a cell in use")
    }

    // The cells in use.
    pub fn used(&self) -> Vec<u64> {
        (0..self.cells.len() as u64).filter(|&c| self.cells[c as usize].is_some()).collect()
    }

    // Where an entry stands among all: by key or deadline, then by order number.
    pub fn rank(&self, cell: u64) -> (u64, u64) {
        let e = self.at(cell);
        (e.key, e.order)
    }

    // Whether a handle names an entry.
    pub fn names(&self, cell: u64, ticket: u64) -> bool {
        cell < self.cells.len() as u64 && self.cells[cell as usize].is_some_and(|e| e.ticket == ticket)
    }

    pub fn spent(&self) -> bool {
        self.counter == u64::MAX
    }

    fn number(&mut self) -> u64 {
        self.counter += 1;
        self.counter - 1
    }

    // An arm or a put: the cell.
    pub fn add(&mut self, key: u64, load: u64) -> u64 {
        let cell = self.free.pop().expect("a free cell");
        let number = self.number();
        self.cells[cell as usize] = Some(Entry { ticket: number, order: number, key, load });
        cell
    }

    // A move or a rekey.
    pub fn renew(&mut self, cell: u64, key: u64) {
        let order = self.number();
        self.cells[cell as usize] = Some(Entry { order, key, ..self.at(cell) });
    }

    // Hands an entry out, whose cell goes on top of the free stack.
    pub fn hand_out(&mut self, cell: u64) -> Entry {
        self.free.push(cell);
        self.cells[cell as usize].take().expect("a cell in use")
    }
}
