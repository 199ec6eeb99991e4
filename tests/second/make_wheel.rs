//! Lines for the wheel, made from where it stands.

use crate::chosen::{self, written};
use crate::dice::Dice;
use crate::wheel::{Wheel, LAST_TICK};

/// What one script likes: scripts differ in it, so that each case gets a script where it is common.
pub struct Taste {
    /// Deadlines that are armed again and again, for equal ones.
    pool: [u64; 3],
    /// Jumps and deadlines reach up to 64 to this power, but seldom further.
    reach: u64,
    /// Weights of the ways to choose a deadline.
    deadlines: [u64; 7],
    /// While it fills, arms are common and the clock stays nearly still.
    filling: bool,
    patience: u64,
    most_room: u64,
    /// Wrong numbers are given once in this many.
    wrong_once_in: u64,
}

/// The first line, and the taste of the script.
pub fn set_up(dice: &mut Dice, many_lines: bool) -> (String, Taste) {
    let cells = chosen::cells(dice, many_lines);
    let start = match dice.below(10) {
        0..=2 => 0,
        3 => dice.pick(&[1, 62, 63, 64, 65, 100, 4095, 4096]),
        4 => border(dice, 0).min(LAST_TICK),
        5 => dice.below(10_000),
        6 | 7 => dice.below(LAST_TICK),
        8 => LAST_TICK - dice.below(5000),
        _ => LAST_TICK - dice.below(3) * dice.below(70),
    };
    let reach = dice.between(1, 6);
    let pool = [0; 3].map(|_| (start + 1 + dice.below(64u64.pow(reach as u32))).min(LAST_TICK));
    let deadlines = [0; 7].map(|_| dice.pick(&[0, 1, 1, 3, 8]) + 1);
    let patience = chosen::patience(dice, many_lines);
    let most_room = dice.pick(&[1, 2, 5, 64, 64]);
    let wrong_once_in = dice.pick(&[5, 15, 40]);
    let taste = Taste { pool, reach, deadlines, filling: true, patience, most_room, wrong_once_in };
    (format!("wheel {} {}", written(dice, cells), written(dice, start)), taste)
}

/// A multiple of 64^p a little after `from`, or a tick beside it.
fn border(dice: &mut Dice, from: u64) -> u64 {
    let p = dice.below(6);
    let multiple = ((from >> (6 * p)) + 1 + dice.below(3) * dice.below(64)) << (6 * p);
    (multiple + dice.below(3)).saturating_sub(1)
}

/// A distance whose size, and not only its value, is random.
fn distance(dice: &mut Dice, reach: u64) -> u64 {
    let power = dice.between(1, reach);
    dice.below(64u64.pow(power as u32))
}

/// A tick after the clock, but seldom one that uses up much of the time that is left, since a wheel
/// at the last tick can be armed no more.
fn ahead(dice: &mut Dice, clock: u64, chosen: u64) -> u64 {
    let part = (LAST_TICK - clock) / 8;
    if chosen > clock + part && !dice.once_in(40) {
        clock + dice.below(part + 2)
    } else {
        chosen
    }
}

fn deadline(dice: &mut Dice, wheel: &Wheel, taste: &Taste) -> u64 {
    let clock = wheel.clock;
    if dice.once_in(taste.wrong_once_in) {
        return match dice.below(6) {
            0 | 1 => clock,
            2 => clock.saturating_sub(1 + distance(dice, taste.reach)),
            3 => LAST_TICK + 1,
            4 => LAST_TICK + 1 + dice.below(70),
            _ => dice.wide(),
        };
    }
    let chosen = match dice.weighed(&taste.deadlines) {
        0 => clock + 1 + dice.below(8),
        1 => clock + 1 + distance(dice, taste.reach),
        2 => border(dice, clock),
        3 if !wheel.plain.entries.is_empty() => dice.pick(&wheel.plain.entries).key,
        4 => dice.pick(&taste.pool),
        5 if dice.once_in(3) => LAST_TICK - dice.below(2) * distance(dice, 2),
        5 => clock + 1 + distance(dice, 6),
        // Digits that are zero, one or the largest stand where cascades can go wrong.
        _ => {
            let low =
                (0..taste.reach).fold(0, |tick, _| 64 * tick + dice.pick(&[0, 0, 1, 1, 63, 5, 32]));
            (clock >> (6 * taste.reach) << (6 * taste.reach)) + low
        }
    };
    if chosen > clock {
        chosen.min(LAST_TICK)
    } else {
        (clock + 1 + dice.below(70)).min(LAST_TICK)
    }
}

fn target(dice: &mut Dice, wheel: &Wheel, taste: &Taste) -> u64 {
    let clock = wheel.clock;
    if dice.once_in(taste.wrong_once_in) {
        return match dice.below(4) {
            0 => clock.saturating_sub(1),
            1 => clock.saturating_sub(1 + distance(dice, taste.reach)),
            2 => LAST_TICK + 1 + dice.below(2) * dice.below(70),
            _ => dice.wide(),
        };
    }
    let first = wheel.plain.entries.iter().map(|e| e.key).min();
    let chosen = match (dice.below(20), first) {
        (0..=2, _) => clock,
        (3..=8, Some(first)) => first + dice.below(3) - 1,
        (9 | 10, Some(_)) => dice.pick(&wheel.plain.entries).key + dice.below(3) - 1,
        (11..=13, _) => border(dice, clock),
        (14, _) if dice.once_in(10) => return LAST_TICK,
        (14, _) => clock + distance(dice, 6),
        (15, _) => clock + dice.below(3),
        _ => clock + distance(dice, taste.reach),
    };
    ahead(dice, clock, chosen).clamp(clock, LAST_TICK)
}

/// One line that keeps the grammar, with the word for its kind.
pub fn line(
    dice: &mut Dice,
    wheel: &Wheel,
    taste: &mut Taste,
    answered: &[(u64, u64)],
) -> (String, String) {
    let plain = &wheel.plain;
    taste.filling = chosen::filling(dice, plain, taste.filling, taste.patience);
    let weights = if taste.filling { [12, 2, 3, 2] } else { [4, 3, 4, 9] };
    let (kind, numbers) = match dice.weighed(&weights) {
        0 => ("A".to_string(), vec![deadline(dice, wheel, taste), dice.wide()]),
        1 => {
            let (kind, cell, ticket) = handle_or_due(dice, wheel, answered);
            (format!("C {kind}"), vec![cell, ticket])
        }
        2 => {
            let (kind, cell, ticket) = handle_or_due(dice, wheel, answered);
            let same = plain.find(cell, ticket).ok().map(|index| plain.entries[index].key);
            match same {
                Some(same) if dice.once_in(4) => {
                    (format!("M {kind}, same deadline"), vec![cell, ticket, same])
                }
                _ => (format!("M {kind}"), vec![cell, ticket, deadline(dice, wheel, taste)]),
            }
        }
        _ => {
            let target = if taste.filling && !dice.once_in(8) {
                wheel.clock + dice.below(2) * dice.below(3)
            } else {
                target(dice, wheel, taste)
            };
            let room = match dice.below(6) {
                0 => 0,
                1 => dice.below(65),
                _ => dice.between(0, taste.most_room),
            };
            ("G".to_string(), vec![target, room])
        }
    };
    let mut text = kind[..1].to_string();
    for number in numbers {
        text += &format!(" {}", written(dice, number));
    }
    (kind, text)
}

/// Entries that are due after *more* get a share of their own, since few scripts would meet them.
fn handle_or_due(
    dice: &mut Dice,
    wheel: &Wheel,
    answered: &[(u64, u64)],
) -> (&'static str, u64, u64) {
    let due: Vec<_> = wheel.plain.entries.iter().filter(|e| e.key == wheel.clock).collect();
    if !due.is_empty() && dice.once_in(2) {
        let entry = dice.pick(&due);
        return ("due", entry.cell, entry.ticket);
    }
    chosen::handle(dice, &wheel.plain, answered)
}
