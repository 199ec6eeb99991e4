//! Lines for the queue, made from where it stands.

use crate::chosen::{self, written};
use crate::dice::Dice;
use crate::queue::Queue;

/// What one script likes.
pub struct Taste {
    /// Keys below this bound are common; a small bound gives many equal keys.
    bound: u64,
    /// Weights of the ways to choose a key.
    keys: [u64; 6],
    /// Runs of rising or falling keys make long ways through the heap.
    run: u64,
    /// While it fills, puts are common.
    filling: bool,
    patience: u64,
}

/// The first line, and the taste of the script.
pub fn set_up(dice: &mut Dice, many_lines: bool) -> (String, Taste) {
    let cells = chosen::cells(dice, many_lines);
    let arity = dice.between(2, 8);
    let bound = dice.pick(&[1, 2, 3, 10, 100, 10_000, u64::MAX]);
    let keys = [0; 6].map(|_| dice.pick(&[0, 1, 1, 3, 8]) + 1);
    let run = dice.wide();
    let patience = chosen::patience(dice, many_lines);
    (
        format!("queue {} {}", written(dice, cells), written(dice, arity)),
        Taste { bound, keys, run, filling: true, patience },
    )
}

fn key(dice: &mut Dice, queue: &Queue, taste: &mut Taste) -> u64 {
    let entries = &queue.plain.entries;
    match dice.weighed(&taste.keys) {
        0 if !entries.is_empty() => dice.pick(entries).key,
        1 if !entries.is_empty() => {
            let near = dice.pick(entries).key;
            near.saturating_add(dice.below(2)).saturating_sub(dice.below(2))
        }
        2 => dice.wide(),
        3 => {
            taste.run = taste.run.saturating_sub(1);
            taste.run
        }
        4 => {
            taste.run = taste.run.saturating_add(1);
            taste.run
        }
        _ => dice.below(taste.bound),
    }
}

/// One line that keeps the grammar, with the word for its kind.
pub fn line(
    dice: &mut Dice,
    queue: &Queue,
    taste: &mut Taste,
    answered: &[(u64, u64)],
) -> (String, String) {
    let plain = &queue.plain;
    taste.filling = chosen::filling(dice, plain, taste.filling, taste.patience);
    let weights = if taste.filling { [14, 1, 2, 5, 2] } else { [4, 2, 7, 5, 4] };
    let (kind, numbers) = match dice.weighed(&weights) {
        0 => ("P".to_string(), vec![key(dice, queue, taste), dice.wide()]),
        1 => ("F".to_string(), vec![]),
        2 => ("T".to_string(), vec![]),
        3 => {
            let (kind, cell, ticket) = chosen::handle(dice, plain, answered);
            let same = plain.find(cell, ticket).ok().map(|index| plain.entries[index].key);
            match same {
                Some(same) if dice.once_in(4) => {
                    (format!("K {kind}, same key"), vec![cell, ticket, same])
                }
                _ => (format!("K {kind}"), vec![cell, ticket, key(dice, queue, taste)]),
            }
        }
        _ => {
            let (kind, cell, ticket) = chosen::handle(dice, plain, answered);
            (format!("R {kind}"), vec![cell, ticket])
        }
    };
    let mut text = kind[..1].to_string();
    for number in numbers {
        text += &format!(" {}", written(dice, number));
    }
    (kind, text)
}
