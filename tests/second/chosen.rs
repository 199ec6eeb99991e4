//! Choices that both engines share: handles, good and bad, and the counts of cells.

use crate::dice::Dice;
use crate::plain::Plain;

/// Counts of cells: one, two, a few, some, the most; full and empty engines come with the small ones.
pub fn cells(dice: &mut Dice, many_lines: bool) -> u64 {
    match dice.below(12) {
        0 => 1,
        1 => 2,
        2..=5 => dice.between(3, 8),
        6..=8 => dice.between(9, 40),
        9 => dice.between(41, 511),
        _ if many_lines => dice.between(100, 512),
        _ => dice.pick(&[1, 2, 4, 16, 512]),
    }
}

/// For how many lines a script goes on to fill or to empty its engine before it turns.
pub fn patience(dice: &mut Dice, many_lines: bool) -> u64 {
    if many_lines {
        dice.pick(&[30, 300, 2000])
    } else {
        dice.pick(&[10, 30, 100])
    }
}

/// Whether the script fills from here on: it turns when full or empty, but stays there a little for
/// the refusals, and turns now and then between.
pub fn filling(dice: &mut Dice, plain: &Plain, filling: bool, patience: u64) -> bool {
    let at_end = if filling { plain.free.is_empty() } else { plain.entries.is_empty() };
    let turns = dice.once_in(if at_end { 6 } else { patience });
    filling != turns
}

/// A handle and the word for its kind: mostly of an entry, else one of each way to name nothing.
pub fn handle(dice: &mut Dice, plain: &Plain, answered: &[(u64, u64)]) -> (&'static str, u64, u64) {
    if plain.entries.is_empty() || dice.once_in(5) {
        return wrong_handle(dice, plain, answered);
    }
    let entry = dice.pick(&plain.entries);
    ("live", entry.cell, entry.ticket)
}

fn wrong_handle(
    dice: &mut Dice,
    plain: &Plain,
    answered: &[(u64, u64)],
) -> (&'static str, u64, u64) {
    // The most recent answers are the likeliest to meet the next owner of their cell.
    let recent = answered.len().saturating_sub(2 * plain.cells as usize + 4);
    let old = match dice.below(2) {
        0 if !answered.is_empty() => Some(dice.pick(answered)),
        _ if !answered.is_empty() => Some(dice.pick(&answered[recent..])),
        _ => None,
    };
    let (cell, ticket) = match plain.entries.is_empty() {
        true => (dice.below(plain.cells), plain.counter),
        false => {
            let entry = dice.pick(&plain.entries);
            (entry.cell, entry.ticket)
        }
    };
    match (dice.below(10), old) {
        (0..=3, Some((cell, ticket))) => ("earlier", cell, ticket),
        (4, _) => ("cell with another ticket", cell, ticket + 1 - 2 * dice.below(2)),
        (5, _) => ("cell with ticket 0", cell, 0),
        (6, _) => ("cell with the counter", cell, plain.counter),
        (7, _) => ("ticket with another cell", dice.below(plain.cells), ticket),
        (8, _) => ("cell N", plain.cells, ticket),
        _ => ("huge", u64::MAX - dice.below(2), dice.pick(&[ticket, u64::MAX, 1 << 32])),
    }
}

/// A number as text, now and then with leading zeros up to 20 digits.
pub fn written(dice: &mut Dice, number: u64) -> String {
    match dice.below(60) {
        0 => format!("{number:020}"),
        1 if number < 1 << 60 => format!("0{number}"),
        _ => number.to_string(),
    }
}
