//! The plain list: what both engines mean, kept as simply as possible.

/// One entry; `key` is the queue's key or the wheel's deadline.
#[derive(Clone, Copy, PartialEq, Eq, Debug)]
pub struct Entry {
    pub key: u64,
    pub order: u64,
    pub cell: u64,
    pub ticket: u64,
    pub load: u64,
}

impl Entry {
    /// The order of all answers: the smaller key, or the smaller order number at equal keys.
    pub fn before(&self, other: &Entry) -> bool {
        self.key < other.key || (self.key == other.key && self.order < other.order)
    }
}

/// A refusal by its number.
pub type Refusal = u64;

pub const NO_FREE_CELL: Refusal = 6;
pub const NAMES_NOTHING: Refusal = 7;
pub const COUNTER_AT_END: Refusal = 8;

/// The entries in no special order, the counter, and the free cells with the top of the stack last.
pub struct Plain {
    pub cells: u64,
    pub entries: Vec<Entry>,
    pub counter: u64,
    pub free: Vec<u64>,
}

impl Plain {
    /// After set-up cell 0 is on top of the free stack.
    pub fn new(cells: u64) -> Plain {
        Plain { cells, entries: Vec::new(), counter: 1, free: (0..cells).rev().collect() }
    }

    /// Refuses when the counter cannot rise; a script never gets there, the rule is here to be whole.
    fn counter_can_rise(&self) -> Result<(), Refusal> {
        if self.counter == u64::MAX {
            Err(COUNTER_AT_END)
        } else {
            Ok(())
        }
    }

    fn next_number(&mut self) -> u64 {
        let number = self.counter;
        self.counter += 1;
        number
    }

    /// An arm or put: the top free cell, and one number as both ticket and order number.
    pub fn add(&mut self, key: u64, load: u64) -> Result<Entry, Refusal> {
        if self.free.is_empty() {
            return Err(NO_FREE_CELL);
        }
        self.counter_can_rise()?;
        let cell = self.free.pop().unwrap();
        let number = self.next_number();
        let entry = Entry { key, order: number, cell, ticket: number, load };
        self.entries.push(entry);
        Ok(entry)
    }

    /// Where the entry named by a handle stands in the list.
    pub fn find(&self, cell: u64, ticket: u64) -> Result<usize, Refusal> {
        let named = |e: &Entry| e.cell == cell && e.ticket == ticket;
        self.entries.iter().position(named).ok_or(NAMES_NOTHING)
    }

    /// A move or rekey: a fresh order number even when the key is unchanged.
    pub fn change(&mut self, index: usize, key: u64) -> Result<Entry, Refusal> {
        self.counter_can_rise()?;
        let number = self.next_number();
        self.entries[index].order = number;
        self.entries[index].key = key;
        Ok(self.entries[index])
    }

    /// Takes an entry out and puts its cell on top of the free stack.
    pub fn take_out(&mut self, index: usize) -> Entry {
        let entry = self.entries.swap_remove(index);
        self.free.push(entry.cell);
        entry
    }

    /// Where the entry before all others stands in the list.
    pub fn first(&self) -> Option<usize> {
        let mut first: Option<usize> = None;
        for (index, entry) in self.entries.iter().enumerate() {
            if first.map_or(true, |f| entry.before(&self.entries[f])) {
                first = Some(index);
            }
        }
        first
    }
}
