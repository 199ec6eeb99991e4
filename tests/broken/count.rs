// One damaged state: what the audit, the checked calls and the quick calls do with it, and what is counted.

use crate::doors::{call, Call, Engine, MISFIT};
use crate::lent::Lent;
use std::collections::BTreeMap;

// What was counted, and the differences in words.
#[derive(Default)]
pub struct Count {
    pub states: u64,
    pub damages: u64,
    pub refused: u64,
    pub accepted: u64,
    pub calls: u64,
    // Quick calls on states that break a rule.
    pub quick: u64,
    // States on which all calls were compared with the model, and the comparisons.
    pub sound: u64,
    pub asked: u64,
    pub rules: BTreeMap<&'static str, u64>,
    // By what the tables or the look are to meet: states that pass, and states that do not.
    pub met: BTreeMap<&'static str, [u64; 2]>,
    // How often a call was refused with the first number where the second applied too; 0 where it was accepted.
    pub given: BTreeMap<(&'static str, u64, u64), u64>,
    pub differences: Vec<String>,
}

// How many more calls are compared with the model on a damaged state that still passes the rules.
const SOME: usize = 3;

// The call with numbers that are too large to be right.
fn wrong(call: Call) -> Call {
    Call { args: [u64::MAX; 3], ..call }
}

impl Count {
    pub fn differs(&mut self, told: String) {
        if self.differences.len() < 20 {
            println!("DIFFERS: {told}");
        }
        self.differences.push(told);
    }

    // One damaged state: the audit, then each of the calls on a copy of it.
    pub fn try_one<E: Engine>(&mut self, e: &E, scratch: &mut E, what: &dyn Fn() -> String) {
        let passes = e.passes();
        self.damages += 1;
        let said = e.audit();
        if said != u64::from(passes.is_ok()) {
            self.differs(format!("{}: the audit says {said}, the rules {passes:?}", what()));
        }
        let calls = e.calls(self.damages);
        let other = wrong(calls[self.damages as usize % 5]);
        for &call in calls.iter().chain([&other]) {
            self.try_call(e, call, passes, scratch, what);
        }
        match passes {
            Ok(()) => {
                self.accepted += 1;
                self.ask_each(e, &calls, scratch, what);
                self.ask_some(e, SOME, scratch, what);
            }
            Err(rule) => {
                self.refused += 1;
                *self.rules.entry(rule).or_default() += 1;
                self.try_quick(e, scratch, what);
            }
        }
    }

    // One state for the tables or the look, of which is known which rule it breaks, if any: the audit and one of the checked calls.
    pub fn meets<E: Engine>(&mut self, families: &[&'static str], e: &E, broken: Option<&'static str>, told: &dyn Fn() -> String) {
        let what = || format!("{}, {}", families[0], told());
        let passes = e.passes();
        self.damages += 1;
        if passes.err() != broken {
            self.differs(format!("{}: made to break {broken:?}, the rules say {passes:?}", what()));
        }
        let said = e.audit();
        if said != u64::from(passes.is_ok()) {
            self.differs(format!("{}: the audit says {said}, the rules {passes:?}", what()));
        }
        let call = e.calls(self.damages)[self.damages as usize % 5];
        self.try_call(e, call, passes, &mut e.clone(), &what);
        for family in families {
            self.met.entry(family).or_default()[usize::from(passes.is_err())] += 1;
        }
        match passes {
            Ok(()) => self.accepted += 1,
            Err(rule) => {
                self.refused += 1;
                *self.rules.entry(rule).or_default() += 1;
            }
        }
    }

    fn try_call<E: Engine>(&mut self, e: &E, call: Call, passes: Result<(), &'static str>, scratch: &mut E, what: &dyn Fn() -> String) {
        self.calls += 1;
        scratch.clone_from(e);
        let lent = Lent::pattern(self.calls as usize % 12);
        let mut out = lent.clone();
        let told = scratch.call(call, &mut out).expect("the slices fit");
        if told.is_nine() != passes.is_err() {
            self.differs(format!("{}: {} answers {told:?}, the rules say {passes:?}", what(), call.name));
        }
        if told.kind == 0 && (*scratch != *e || out != lent) {
            self.differs(format!("{}: {} is refused with {} and changed something", what(), call.name, told.numbers[0]));
        }
        self.keeps_bounds(e, scratch, &out, call, what);
        if told.kind != 0 {
            if let Err(rule) = scratch.passes() {
                self.differs(format!("{}: after {} a rule is broken: {rule}", what(), call.name));
            }
        }
    }

    // The quick calls on a state that breaks a rule: they come back, and write nothing beside what is lent nor beyond the last cell.
    pub fn try_quick<E: Engine>(&mut self, e: &E, scratch: &mut E, what: &dyn Fn() -> String) {
        let calls = e.calls(self.quick);
        let other = wrong(calls[self.quick as usize % 5]);
        for &call in calls.iter().chain([&other]) {
            self.quick += 1;
            scratch.clone_from(e);
            let mut out = Lent::pattern(self.quick as usize % 30);
            scratch.call(call.quick(), &mut out).expect("the slices fit");
            self.keeps_bounds(e, scratch, &out, call.quick(), what);
        }
    }

    // The guard words around every lent slice, and the words beyond the last cell, after any call.
    fn keeps_bounds<E: Engine>(&mut self, before: &E, after: &E, out: &Lent<u64>, call: Call, what: &dyn Fn() -> String) {
        if !after.unharmed() || !out.unharmed() {
            self.differs(format!("{}: {call:?} wrote beside what is lent", what()));
        }
        if after.rest() != before.rest() {
            self.differs(format!("{}: {call:?} wrote beyond the last cell", what()));
        }
    }

    // A refusal of set-up: by its number, and nothing is changed.
    pub fn refuses_set_up<E: Engine>(&mut self, e: E, arg: u64, number: u64) {
        let mut after = e.clone();
        let told = after.call(call("set-up", [arg, 0, 0]), &mut Lent::pattern(0)).expect("the slices fit");
        if told.kind != 0 || told.numbers[0] != number || after != e {
            self.differs(format!("set-up of {} words with {arg} answers {told:?}", e.words().len()));
        }
    }

    // Slices of other lengths than a head's: the doors say so, and call nothing.
    pub fn misfits<E: Engine>(&mut self, e: E) {
        let mut after = e.clone();
        let calls = e.calls(0).into_iter().flat_map(|c| [c, c.quick()]);
        let given = calls.map(|c| after.call(c, &mut Lent::pattern(0))).all(|g| g == Err(MISFIT));
        if !given || e.audit() != MISFIT || after != e {
            self.differs("slices of another length are not answered with 65535".to_string());
        }
    }
}
