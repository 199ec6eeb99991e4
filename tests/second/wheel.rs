//! The wheel by its plain list alone: no slots, no levels; the moves come from the digit formula.

use crate::plain::{Entry, Plain, Refusal};

pub const LAST_TICK: u64 = 68_719_476_735;
const NOT_ABOVE_CLOCK: Refusal = 3;
const BELOW_CLOCK: Refusal = 4;
const ABOVE_LAST_TICK: Refusal = 5;

pub struct Wheel {
    pub plain: Plain,
    pub clock: u64,
}

/// What an advance answers.
pub struct Advance {
    pub fired: Vec<Entry>,
    pub clock: u64,
    pub moves: u64,
    pub more: bool,
}

fn digit(tick: u64, position: u32) -> u64 {
    (tick >> (6 * position)) & 63
}

/// The highest position at which two ticks differ, if they do.
fn highest_difference(a: u64, b: u64) -> Option<u32> {
    (0..6).rev().find(|p| digit(a, *p) != digit(b, *p))
}

/// The moves of one entry with this deadline in an advance from clock `from` to clock `to`.
pub fn moves_of(deadline: u64, from: u64, to: u64) -> u64 {
    let Some(level) = highest_difference(from, deadline) else { return 0 };
    let lowest = if deadline > to { highest_difference(to, deadline).unwrap() } else { 0 };
    let moves = (lowest..level).filter(|p| digit(deadline, *p) != 0).count() as u64;
    assert_eq!(moves, walked_moves(deadline, from, to), "formula and walk differ");
    moves
}

/// The same count by the document's other account: the wake ticks that the entry meets on its way.
fn walked_moves(deadline: u64, from: u64, to: u64) -> u64 {
    let (mut clock, mut moves) = (from, 0);
    while let Some(level) = highest_difference(clock, deadline) {
        let wake_tick = deadline >> (6 * level) << (6 * level);
        if wake_tick > to {
            break;
        }
        clock = wake_tick;
        moves += u64::from(clock != deadline);
    }
    moves
}

impl Wheel {
    pub fn set_up(cells: u64, start: u64) -> Result<Wheel, Refusal> {
        if start > LAST_TICK {
            return Err(ABOVE_LAST_TICK);
        }
        Ok(Wheel { plain: Plain::new(cells), clock: start })
    }

    /// The refusals that arm and move share, in their order.
    fn deadline_fits(&self, deadline: u64) -> Result<(), Refusal> {
        if deadline > LAST_TICK {
            return Err(ABOVE_LAST_TICK);
        }
        if deadline <= self.clock {
            return Err(NOT_ABOVE_CLOCK);
        }
        Ok(())
    }

    pub fn arm(&mut self, deadline: u64, load: u64) -> Result<Entry, Refusal> {
        self.deadline_fits(deadline)?;
        self.plain.add(deadline, load)
    }

    pub fn cancel(&mut self, cell: u64, ticket: u64) -> Result<Entry, Refusal> {
        let index = self.plain.find(cell, ticket)?;
        Ok(self.plain.take_out(index))
    }

    pub fn move_to(&mut self, cell: u64, ticket: u64, deadline: u64) -> Result<Entry, Refusal> {
        let index = self.plain.find(cell, ticket)?;
        self.deadline_fits(deadline)?;
        self.plain.change(index, deadline)
    }

    pub fn advance(&mut self, target: u64, room: u64) -> Result<Advance, Refusal> {
        if target > LAST_TICK {
            return Err(ABOVE_LAST_TICK);
        }
        if target < self.clock {
            return Err(BELOW_CLOCK);
        }
        let stood: Vec<u64> = self.plain.entries.iter().map(|e| e.key).collect();
        let from = self.clock;
        let mut fired = Vec::new();
        let mut more = false;
        self.clock = target;
        while let Some(index) = self.plain.first() {
            let next = self.plain.entries[index];
            if next.key > target {
                break;
            }
            if fired.len() as u64 == room {
                more = true;
                self.clock = next.key;
                break;
            }
            fired.push(self.plain.take_out(index));
        }
        let moves = stood.iter().map(|deadline| moves_of(*deadline, from, self.clock)).sum();
        Ok(Advance { fired, clock: self.clock, moves, more })
    }
}
