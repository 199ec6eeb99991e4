// Asks a state at the two doors of the audit's quick ways, and counts.

use crate::driven::Driven;

extern "C" {
    // numbers are cells and counter; the mask says which words of an entry have to be zero. Tickets and order numbers are spread evenly
    // over the tables, or scattered as well. 0: an entry is broken, 1: the tables gave up, 2: they know that the numbers differ.
    fn wastelquib_test_tables(w: *const u64, w_len: usize, numbers: *const u64, numbers_len: usize, used: u64, scattered: u64) -> u64;
}

#[derive(Default)]
pub struct Tally {
    pub states: u64,
    pub scattered: u64,
    pub fell_back: u64,
    pub looked: u64,
    pub in_vain: u64,
    pub broken: u64,
    pub calls: u64,
    pub largest: u64,
    said: u64,
}

// Whether the tables took the numbers of this memory.
fn tables<E: Driven>(e: &E, scattered: bool) -> u64 {
    let [cells, _, counter] = e.store();
    unsafe { wastelquib_test_tables(e.words().as_ptr(), e.words().len(), [cells, counter].as_ptr(), 2, E::UNUSED, scattered as u64) }
}

impl Tally {
    fn say(&mut self, told: String) {
        self.said += 1;
        if self.said <= 20 {
            println!("FELL BACK: {told}");
        }
    }

    pub fn ask<E: Driven>(&mut self, e: &E, what: &dyn Fn() -> String) {
        self.states += 1;
        self.largest = self.largest.max(e.store()[2]);
        let evenly = tables(e, false);
        let scattered = if evenly == 1 { tables(e, true) } else { 2 };
        match (evenly, scattered) {
            (2, _) => (),
            (1, 2) => self.scattered += 1,
            (1, 1) => {
                self.fell_back += 1;
                self.say(format!("{}: the tables gave up", what()));
            }
            other => {
                self.broken += 1;
                self.say(format!("{}: the tables answer {other:?}", what()));
            }
        }
        if let Some(told) = e.walked() {
            self.looked += 1;
            if told != 2 {
                self.in_vain += 1;
                self.say(format!("{}: the walk along the lists answers {told}", what()));
            }
        }
    }
}
