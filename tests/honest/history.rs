// One history: an engine, which of its entries live for ever, and what is done to it.

use crate::doors::call;
use crate::driven::{made, Driven};
use crate::lent::Lent;
use crate::made::Dice;
use crate::tally::Tally;

pub struct History<'a, E> {
    name: String,
    tally: &'a mut Tally,
    pub e: E,
    pub dice: Dice,
    pub cells: usize,
    pub live: usize,
    // By cell, which entries live for ever; the others' deadlines are at most so far ahead.
    kept: Vec<bool>,
    span: u64,
}

impl<'a, E: Driven> History<'a, E> {
    pub fn new(name: String, tally: &'a mut Tally, cells: usize, span: u64) -> History<'a, E> {
        History { name, tally, e: E::start(cells), dice: Dice(88_172_645_463_325_252), cells, live: 0, kept: vec![false; cells], span }
    }

    pub fn ask(&mut self) {
        let (name, counter) = (&self.name, self.e.store()[2]);
        self.tally.ask(&self.e, &|| format!("{} of {} cells, {name}, counter {counter}", E::NAME, self.cells));
    }

    fn make(&mut self, which: usize, args: [u64; 3]) -> [u64; 5] {
        self.tally.calls += 1;
        made(&mut self.e, call(E::CALLS[which], args).quick(), &mut Lent::filled(0, 0)).numbers
    }

    // A new entry.
    pub fn add(&mut self, kept: bool) -> usize {
        let key = if kept { self.e.never(&mut self.dice) } else { self.e.soon(self.span, &mut self.dice) };
        let load = self.dice.next();
        let cell = self.make(0, [key, load, 0])[0] as usize;
        self.kept[cell] = kept;
        self.live += 1;
        cell
    }

    // Another deadline or key, and with it a new order number.
    pub fn change(&mut self, cell: usize) {
        let key = if self.kept[cell] { self.e.never(&mut self.dice) } else { self.e.soon(self.span, &mut self.dice) };
        let ticket = self.e.words()[8 * cell];
        self.make(1, [cell as u64, ticket, key]);
    }

    pub fn remove(&mut self, cell: usize) {
        let ticket = self.e.words()[8 * cell];
        self.make(2, [cell as u64, ticket, 0]);
        self.kept[cell] = false;
        self.live -= 1;
    }

    pub fn turn(&mut self) {
        self.tally.calls += 1;
        self.live -= self.e.turn(&mut self.dice) as usize;
    }

    // The counter as so many new entries leave it that are each taken out at once: all else is as it was (jumps_are_calls says so).
    pub fn jump(&mut self, by: u64) {
        assert!(self.live < self.cells, "there is no free cell for it");
        *self.e.counter() += by;
    }

    // Jumps to the next number that is to be given, where it lies ahead.
    pub fn jump_to(&mut self, number: u64) {
        let counter = self.e.store()[2];
        self.jump(number.saturating_sub(counter));
    }

    fn in_use(&self, cell: usize) -> bool {
        self.e.words()[8 * cell] != 0
    }

    // The cells of those that do not live for ever.
    pub fn young(&self) -> Vec<usize> {
        (0..self.cells).filter(|&c| self.in_use(c) && !self.kept[c]).collect()
    }

    // The cells of all.
    pub fn used(&self) -> Vec<usize> {
        (0..self.cells).filter(|&c| self.in_use(c)).collect()
    }

    // Any one of them, or of those that do not live for ever, where there are any.
    pub fn any(&mut self, kept_too: bool) -> Option<usize> {
        let from = self.dice.below(self.cells as u64) as usize;
        (from..self.cells).chain(0..from).find(|&c| self.in_use(c) && (kept_too || !self.kept[c]))
    }
}
