// What both engines have in common behind the doors of crates/test_doors: each is a row of numbers of which any may be damaged.

use crate::asks::Ask;
use crate::lent::Lent;
use crate::model::Expected;

// What a door gives where the slices have not a head's lengths.
pub const MISFIT: u64 = 65535;

// A call: its number at the door, and its arguments.
#[derive(Clone, Copy, Debug)]
pub struct Call {
    pub name: &'static str,
    pub number: u64,
    pub args: [u64; 3],
}

impl Call {
    // The quick call for a checked one.
    pub fn quick(self) -> Call {
        Call { number: self.number + 16, ..self }
    }
}

// A checked call by its name.
pub fn call(name: &'static str, args: [u64; 3]) -> Call {
    let number = match name {
        "set-up" => 0,
        "arm" | "put" => 1,
        "move" | "rekey" => 2,
        "cancel" | "remove" => 3,
        "advance" | "take" => 4,
        _ => 5,
    };
    Call { name, number, args }
}

// An answer: kind 0 is a refusal, whose number is the first of the numbers.
#[derive(Clone, Copy, PartialEq, Debug)]
pub struct Told {
    pub kind: u64,
    pub numbers: [u64; 5],
}

impl Told {
    pub fn is_nine(&self) -> bool {
        self.kind == 0 && self.numbers[0] == 9
    }
}

pub trait Engine: Clone + PartialEq {
    // How many numbers stand in the head and in the memory, the memory's last.
    fn size(&self) -> usize;
    fn words(&self) -> &Lent<u64>;
    fn words_mut(&mut self) -> &mut Lent<u64>;
    fn get(&self, i: usize) -> u64;
    // Writes number i, where it fits.
    fn set(&mut self, i: usize, x: u64) -> bool;
    fn bits(&self, i: usize) -> u32;
    fn name(&self, i: usize) -> String;
    // The cells, the free stack's top and the counter.
    fn store(&self) -> [u64; 3];
    fn passes(&self) -> Result<(), &'static str>;
    fn audit(&self) -> u64;
    // Makes a call, with output words for an advance.
    fn call(&mut self, call: Call, out: &mut Lent<u64>) -> Result<Told, u64>;
    // Whether the guard words around what is lent are as they were.
    fn unharmed(&self) -> bool;
    // One of each checked call, by the handle of an entry if there is one; which entry and which numbers, the turn says.
    fn calls(&self, turn: u64) -> [Call; 5];
    // The same state with another counter.
    fn with_counter(&self, counter: u64) -> Self;
    // What a call on this state, which passes the rules, must answer and leave.
    fn expected(&self, call: Call, out: &Lent<u64>) -> Expected<Self>;
    // What an accepted set-up must leave.
    fn fresh(&self, arg: u64) -> Self;
    // Many calls for a state that passes the rules.
    fn asks(&self) -> Vec<Ask>;

    fn head_size(&self) -> usize {
        self.size() - self.words().len()
    }
    // The words beyond the last cell.
    fn rest(&self) -> &[u64] {
        let w = self.words();
        &w[w.len() / 8 * 8..]
    }
    // The handle of an entry, or one that names nothing.
    fn handle(&self, turn: u64) -> (u64, u64) {
        let w = self.words();
        let cells = w.len() / 8;
        let from = if cells == 0 { 0 } else { turn as usize % cells.min(16) };
        let used = (from..cells).chain(0..from).find(|c| w[8 * c] != 0);
        used.map_or((0, 1), |c| (c as u64, w[8 * c]))
    }
}

// Six words for an answer, with guard words around them.
pub fn room_to_tell() -> Lent<u64> {
    Lent::filled(0, 6)
}

pub fn told_of(given: u64, told: &Lent<u64>) -> Result<Told, u64> {
    assert!(told.unharmed(), "a word beside the answer was written");
    if given != 0 {
        return Err(given);
    }
    Ok(Told { kind: told[0], numbers: [told[1], told[2], told[3], told[4], told[5]] })
}
