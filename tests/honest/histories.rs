// The histories. `table` is the table's size for so many cells, twice the most of them.

use crate::driven::Driven;
use crate::history::History;
use crate::tally::Tally;

fn table(cells: usize) -> u64 {
    if cells <= 512 { 1024 } else { 8192 }
}

// How a long random run of calls is made up.
struct Mix {
    // Entries at most, and how many of them live for ever, begun all over the run.
    most: usize,
    kept: usize,
    // Of ten calls on a full engine so many change an entry, the others take one out.
    changes: u64,
    kept_change: bool,
    span: u64,
}

// Calls at random, until so many numbers are given.
fn random_run<E: Driven>(tally: &mut Tally, cells: usize, mix: &Mix, numbers: u64, samples: u64) {
    let kind = format!("{} in use, {} kept, {} changes of 10", mix.most, mix.kept, mix.changes);
    let mut h: History<E> = History::new(kind, tally, cells, mix.span);
    let mut kept = 0;
    for sample in 0..samples {
        let until = numbers / samples * (sample + 1);
        while h.e.store()[2] < until {
            // The first half of those that live for ever come at once, the others one by one.
            let due = kept < mix.kept / 2 || h.e.store()[2] > numbers / 2 / mix.kept as u64 * kept as u64;
            if kept < mix.kept && due && h.live < mix.most {
                h.add(true);
                kept += 1;
            } else if h.live < mix.most {
                h.add(false);
            } else if h.dice.below(10) < mix.changes {
                let cell = h.any(mix.kept_change).expect("some are in use");
                h.change(cell);
            } else if h.dice.below(4) == 0 {
                h.turn();
            } else if let Some(cell) = h.any(false) {
                h.remove(cell);
            }
        }
        h.ask();
    }
}

// Those that live for ever have the first numbers; the young ones come a multiple of the table's size later, again and again.
fn old_and_young<E: Driven>(tally: &mut Tally, cells: usize, old: usize, most: usize) {
    let size = table(cells);
    let mut h: History<E> = History::new(format!("{old} old ones beside young ones"), tally, cells, 1000);
    (0..old).for_each(|_| { h.add(true); });
    let near = (1..50).chain((50..4000).step_by(197)).chain((12..28).map(|i| 1 << i));
    for k in near {
        for cell in h.young() {
            h.remove(cell);
        }
        let offset = h.dice.one_of(&[0, 1, size / 2, size - 1]);
        h.jump_to(k * size + offset);
        while h.live < most {
            h.add(false);
        }
        h.ask();
    }
    // The same for order numbers: all but the old ones are changed in turn.
    for _ in 0..8 {
        for cell in h.young() {
            h.change(cell);
        }
        h.ask();
    }
}

// Runs of consecutive numbers, each begun some multiple of the table's size after the one before.
fn eras<E: Driven>(tally: &mut Tally, cells: usize, runs: usize, far: &dyn Fn(usize) -> u64, name: &str) {
    let mut h: History<E> = History::new(format!("{runs} runs {name} apart"), tally, cells, 1000);
    let mut start = 1;
    for run in 0..runs {
        h.jump_to(start);
        while h.live < cells * (run + 1) / runs {
            h.add(true);
        }
        h.ask();
        start += far(run) * table(cells);
    }
}

// Of m new entries one lives for ever; then, with one cell free, each of them is changed, again one number in m.
fn one_in<E: Driven>(tally: &mut Tally, cells: usize, m: u64) {
    let mut h: History<E> = History::new(format!("one in {m} lives"), tally, cells, 1000);
    while h.live < cells {
        h.jump(m - 1);
        h.add(true);
    }
    h.ask();
    let last = h.any(true).expect("some are in use");
    h.remove(last);
    for cell in h.used() {
        h.jump(m - 1);
        h.change(cell);
    }
    h.ask();
}

// Every entry is changed in turn, or every s-th, so that the order numbers of some stay behind.
fn rotations<E: Driven>(tally: &mut Tally, cells: usize, step: usize) {
    let mut h: History<E> = History::new(format!("every {step}. entry changed in turn"), tally, cells, 100_000);
    (0..cells).for_each(|_| { h.add(false); });
    let turns = 40 * table(cells) as usize / (cells / step);
    for turn in 0..turns {
        for cell in (0..cells).step_by(step) {
            h.change(cell);
        }
        if turn % (turns / 20).max(1) == 0 {
            h.ask();
        }
    }
}

// What a jump leaves is what calls leave: new entries that are each taken out at once.
pub fn jumps_are_calls<E: Driven>(tally: &mut Tally) {
    let mut h: History<E> = History::new("a jump".to_string(), tally, 16, 100);
    (0..9).for_each(|i| { h.add(i % 2 == 0); });
    let mut jumped = h.e.clone();
    *jumped.counter() += 1000;
    for _ in 0..1000 {
        let cell = h.add(false);
        h.remove(cell);
    }
    assert!(h.e == jumped, "a jump of the counter is not what calls leave");
}

pub fn all<E: Driven>(tally: &mut Tally, cells: usize) {
    let size = table(cells);
    let many = cells / 4;
    for most in [cells, cells / 2] {
        for kept in [8, many] {
            for (changes, kept_change, span) in [(0, false, 1000), (5, true, 100_000), (9, false, 1000)] {
                let mix = Mix { most, kept, changes, kept_change, span };
                random_run::<E>(tally, cells, &mix, 20 * size, 40);
            }
        }
    }
    for old in [8, many, cells / 2] {
        old_and_young::<E>(tally, cells, old, cells);
        old_and_young::<E>(tally, cells, old, cells / 2 + old / 2);
    }
    let fibonacci = |i: usize| (0..i).fold((1, 1), |(a, b), _| (b, a + b)).0;
    for runs in [4, 16, 40] {
        eras::<E>(tally, cells, runs, &fibonacci, "Fibonacci's numbers of tables");
        eras::<E>(tally, cells, runs, &|_| 1, "one table");
        eras::<E>(tally, cells, runs, &|i| 1 << i.min(28), "powers of two of tables");
    }
    let near = |m: u64| (m - 3)..=(m + 3);
    let beside = (1..40).chain([100, 1000, 1597, 2584, 4181, 6765, 10_000, 10_946, 1_000_000]);
    let powers = (6..18).chain([20, 24, 28]).flat_map(|i| near(1 << i));
    for m in beside.chain(powers).chain(near(3 * size)).chain(near(10 * size)) {
        one_in::<E>(tally, cells, m);
    }
    for step in [1, 2, 7] {
        rotations::<E>(tally, cells, step);
    }
}
