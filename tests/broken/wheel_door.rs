// The wheel through its doors in crates/test_doors.

use crate::asks::{self, Ask};
use crate::doors::{call, room_to_tell, told_of, Call, Engine, Told};
use crate::lent::{begin, Lent};
use crate::model::Expected;
use crate::model_wheel::{self, Model};
use crate::rules;

extern "C" {
    #[allow(clippy::too_many_arguments)]
    fn wastelquib_test_wheel(
        w: *mut u64, w_len: usize, first: *mut u16, first_len: usize, last: *mut u16, last_len: usize, marks: *mut u64, marks_len: usize,
        numbers: *mut u64, numbers_len: usize, out: *mut u64, out_len: usize, told: *mut u64, told_len: usize, call: u64, a: u64, b: u64, c: u64,
    ) -> u64;
    fn wastelquib_test_wheel_audit(
        w: *const u64, w_len: usize, first: *const u16, first_len: usize, last: *const u16, last_len: usize, marks: *const u64, marks_len: usize,
        numbers: *const u64, numbers_len: usize,
    ) -> u64;
}

const WHEEL_NUMBERS: [&str; 6] = ["clock", "due first", "due last", "cells", "free", "counter"];

#[derive(PartialEq)]
pub struct Wheel {
    pub first: Lent<u16>,
    pub last: Lent<u16>,
    pub marks: Lent<u64>,
    pub numbers: Lent<u64>,
    pub words: Lent<u64>,
}

impl Wheel {
    // Slices of a head's lengths and this many words, before a set-up: filled, so that what it leaves unwritten shows.
    pub fn blank(len: usize) -> Wheel {
        let ends = Lent::filled(1, 384);
        let six = Lent::filled(1, 6);
        Wheel { first: ends.clone(), last: ends, marks: six.clone(), numbers: six, words: Lent::pattern(len) }
    }
}

impl Clone for Wheel {
    fn clone(&self) -> Wheel {
        let (first, last, marks) = (self.first.clone(), self.last.clone(), self.marks.clone());
        Wheel { first, last, marks, numbers: self.numbers.clone(), words: self.words.clone() }
    }
    fn clone_from(&mut self, from: &Wheel) {
        self.first.clone_from(&from.first);
        self.last.clone_from(&from.last);
        self.marks.clone_from(&from.marks);
        self.numbers.clone_from(&from.numbers);
        self.words.clone_from(&from.words);
    }
}

impl Engine for Wheel {
    fn size(&self) -> usize {
        780 + self.words.len()
    }
    fn words(&self) -> &Lent<u64> {
        &self.words
    }
    fn words_mut(&mut self) -> &mut Lent<u64> {
        &mut self.words
    }
    fn get(&self, i: usize) -> u64 {
        match i {
            0..=5 => self.numbers[i],
            6..=11 => self.marks[i - 6],
            12..=395 => self.first[i - 12] as u64,
            396..=779 => self.last[i - 396] as u64,
            _ => self.words[i - 780],
        }
    }
    fn set(&mut self, i: usize, x: u64) -> bool {
        if self.bits(i) == 16 && x > 65535 {
            return false;
        }
        match i {
            0..=5 => self.numbers[i] = x,
            6..=11 => self.marks[i - 6] = x,
            12..=395 => self.first[i - 12] = x as u16,
            396..=779 => self.last[i - 396] = x as u16,
            _ => self.words[i - 780] = x,
        }
        true
    }
    fn bits(&self, i: usize) -> u32 {
        if (12..780).contains(&i) { 16 } else { 64 }
    }
    fn name(&self, i: usize) -> String {
        match i {
            0..=5 => WHEEL_NUMBERS[i].to_string(),
            6..=11 => format!("marks {}", i - 6),
            12..=395 => format!("first {}", i - 12),
            396..=779 => format!("last {}", i - 396),
            _ => format!("cell {} word {}", (i - 780) / 8, (i - 780) % 8),
        }
    }
    fn store(&self) -> [u64; 3] {
        [self.numbers[3], self.numbers[4], self.numbers[5]]
    }
    fn passes(&self) -> Result<(), &'static str> {
        let n = &self.numbers;
        let store = rules::Store { words: &self.words, cells: n[3], free: n[4], counter: n[5] };
        let (first, last, marks) = (&self.first, &self.last, &self.marks);
        rules::wheel_passes(&rules::Wheel { first, last, marks, clock: n[0], due: (n[1], n[2]), store })
    }
    fn audit(&self) -> u64 {
        let (f, l, m, n, w) = (&self.first, &self.last, &self.marks, &self.numbers, &self.words);
        unsafe {
            wastelquib_test_wheel_audit(
                w.as_ptr(), w.len(), f.as_ptr(), f.len(), l.as_ptr(), l.len(), m.as_ptr(), m.len(), n.as_ptr(), n.len(),
            )
        }
    }
    fn call(&mut self, call: Call, out: &mut Lent<u64>) -> Result<Told, u64> {
        begin(call.number);
        let mut told = room_to_tell();
        let (f, l, m, n, w) = (&mut self.first, &mut self.last, &mut self.marks, &mut self.numbers, &mut self.words);
        let [a, b, c] = call.args;
        let given = unsafe {
            wastelquib_test_wheel(
                w.as_mut_ptr(), w.len(), f.as_mut_ptr(), f.len(), l.as_mut_ptr(), l.len(), m.as_mut_ptr(), m.len(),
                n.as_mut_ptr(), n.len(), out.as_mut_ptr(), out.len(), told.as_mut_ptr(), 6, call.number, a, b, c,
            )
        };
        told_of(given, &told)
    }
    fn unharmed(&self) -> bool {
        let halves = self.first.unharmed() && self.last.unharmed();
        halves && self.marks.unharmed() && self.numbers.unharmed() && self.words.unharmed()
    }
    fn calls(&self, turn: u64) -> [Call; 5] {
        let (cell, ticket) = self.handle(turn);
        let clock = self.numbers[0].min(rules::LAST_TICK);
        let far = [4200, 70, 0, rules::LAST_TICK][turn as usize % 4];
        [
            call("arm", [clock + [5, 70, 5000][turn as usize % 3], 77, 0]),
            call("move", [cell, ticket, clock + 4200]),
            call("cancel", [cell, ticket, 0]),
            call("advance", [rules::LAST_TICK.min(clock + far), 0, 0]),
            call("next wake", [0; 3]),
        ]
    }
    fn with_counter(&self, counter: u64) -> Wheel {
        let mut v = self.clone();
        v.numbers[5] = counter;
        v
    }
    fn expected(&self, call: Call, out: &Lent<u64>) -> Expected<Wheel> {
        model_wheel::expected(self, call, out)
    }
    fn fresh(&self, start: u64) -> Wheel {
        Model::fresh(self.words.len() as u64 / 8, start).write(&self.words)
    }
    fn asks(&self) -> Vec<Ask> {
        asks::of_wheel(self)
    }
}
