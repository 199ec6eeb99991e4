// States that pass the rules: the checked and the quick call must both answer and leave what the model of document 01 says, word by word.

use crate::asks::Ask;
use crate::count::Count;
use crate::doors::{call, Call, Engine};
use crate::lent::Lent;

// Each call's refusals but 9, in document 01's order: each must have been given.
const ORDERS: [(&str, &[u64]); 10] = [
    ("arm", &[5, 3, 6, 8]),
    ("move", &[7, 5, 3, 8]),
    ("cancel", &[7]),
    ("advance", &[5, 4]),
    ("next wake", &[]),
    ("put", &[6, 8]),
    ("first", &[10]),
    ("take", &[10]),
    ("rekey", &[7, 8]),
    ("remove", &[7]),
];

// Two that never apply at once: above the last tick, and at or below the clock.
const NEVER_BOTH: [[u64; 2]; 2] = [[5, 3], [5, 4]];

impl Count {
    fn ask<E: Engine>(&mut self, e: &E, ask: Ask, scratch: &mut E, what: &dyn Fn() -> String) {
        let lent = Lent::pattern(ask.out);
        let wanted = e.expected(ask.call, &lent);
        self.asked += 1;
        self.note(ask.call.name, &wanted.causes);
        for made in [ask.call, ask.call.quick()] {
            scratch.clone_from(e);
            let mut out = lent.clone();
            let told = scratch.call(made, &mut out).expect("the slices fit");
            if told != wanted.told {
                self.differs(format!("{}: {made:?} with {} words answers {told:?}, not {:?}", what(), ask.out, wanted.told));
            }
            if *scratch != wanted.after {
                let i = (0..e.size()).find(|&i| scratch.get(i) != wanted.after.get(i));
                let at = i.map_or("a guard word".to_string(), |i| format!("{} is {}, not {}", e.name(i), scratch.get(i), wanted.after.get(i)));
                self.differs(format!("{}: after {made:?} with {} words {at}", what(), ask.out));
            }
            if out != wanted.out {
                self.differs(format!("{}: {made:?} with {} words wrote {:?}, not {:?}", what(), ask.out, &out[..], &wanted.out[..]));
            }
        }
    }

    // Which refusal was the first to apply, and with which others.
    fn note(&mut self, name: &'static str, causes: &[u64]) {
        let first = causes.first().copied().unwrap_or(0);
        *self.given.entry((name, first, first)).or_default() += 1;
        for &other in causes.iter().skip(1) {
            *self.given.entry((name, first, other)).or_default() += 1;
        }
    }

    // Each operation once.
    pub fn ask_each<E: Engine>(&mut self, e: &E, calls: &[Call], scratch: &mut E, what: &dyn Fn() -> String) {
        for &call in calls {
            let out = self.asked as usize % 12;
            self.ask(e, Ask { call, out }, scratch, what);
        }
    }

    // Some of the calls, another part of them at each turn.
    pub fn ask_some<E: Engine>(&mut self, e: &E, some: usize, scratch: &mut E, what: &dyn Fn() -> String) {
        let asks = e.asks();
        for i in 0..some {
            let turn = self.asked as usize * 7 + i;
            self.ask(e, asks[turn % asks.len()], scratch, what);
        }
    }

    // All of the calls, with the counter as it is, at its last usable value and at its end.
    pub fn ask_all<E: Engine>(&mut self, e: &E, what: &dyn Fn() -> String) {
        for counter in [e.store()[2], u64::MAX - 1, u64::MAX] {
            self.ask_with(e, counter, what);
        }
    }

    // All of the calls with this counter.
    pub fn ask_with<E: Engine>(&mut self, e: &E, counter: u64, what: &dyn Fn() -> String) {
        self.sound += 1;
        let e = e.with_counter(counter);
        let mut scratch = e.clone();
        if let Err(rule) = e.passes() {
            self.differs(format!("{}: the state breaks a rule: {rule}", what()));
        }
        for ask in e.asks() {
            self.ask(&e, ask, &mut scratch, &|| format!("{}, counter {counter}", what()));
        }
    }

    // An accepted set-up writes the head and every whole cell, and no word beyond.
    pub fn accepts_set_up<E: Engine>(&mut self, e: E, arg: u64) {
        let mut after = e.clone();
        let told = after.call(call("set-up", [arg, 0, 0]), &mut Lent::pattern(0)).expect("the slices fit");
        if told.kind != 1 || after != e.fresh(arg) {
            self.differs(format!("set-up of {} words with {arg} answers {told:?}, or leaves something else", e.words().len()));
        }
    }

    // Every refusal was given, each also where one that stands after it in the order applied too; and every call was accepted.
    pub fn all_given(&mut self) {
        for (name, order) in ORDERS {
            let mut pairs = vec![(name, 0, 0)];
            for (i, &first) in order.iter().enumerate() {
                pairs.extend(order[i..].iter().map(|&other| (name, first, other)));
            }
            pairs.retain(|&(_, first, other)| !NEVER_BOTH.contains(&[first, other]));
            for pair in pairs.iter().filter(|p| !self.given.contains_key(p)).copied().collect::<Vec<_>>() {
                self.differs(format!("{} was never refused with {} where {} applies too (0: never accepted)", pair.0, pair.1, pair.2));
            }
        }
    }
}
