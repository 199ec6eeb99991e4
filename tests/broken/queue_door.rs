// The ready queue through its doors in crates/test_doors.

use crate::asks::{self, Ask};
use crate::doors::{call, room_to_tell, told_of, Call, Engine, Told};
use crate::lent::{begin, Lent};
use crate::model::Expected;
use crate::model_queue::{self, Model};
use crate::rules;

extern "C" {
    fn wastelquib_test_queue(
        w: *mut u64, w_len: usize, numbers: *mut u64, numbers_len: usize, told: *mut u64, told_len: usize, call: u64, a: u64, b: u64, c: u64,
    ) -> u64;
    fn wastelquib_test_queue_audit(w: *const u64, w_len: usize, numbers: *const u64, numbers_len: usize) -> u64;
}

const QUEUE_NUMBERS: [&str; 5] = ["arity", "count", "cells", "free", "counter"];

#[derive(PartialEq)]
pub struct Queue {
    pub numbers: Lent<u64>,
    pub words: Lent<u64>,
}

impl Queue {
    pub fn blank(len: usize) -> Queue {
        Queue { numbers: Lent::filled(1, 5), words: Lent::pattern(len) }
    }
}

impl Clone for Queue {
    fn clone(&self) -> Queue {
        Queue { numbers: self.numbers.clone(), words: self.words.clone() }
    }
    fn clone_from(&mut self, from: &Queue) {
        self.numbers.clone_from(&from.numbers);
        self.words.clone_from(&from.words);
    }
}

impl Engine for Queue {
    fn size(&self) -> usize {
        5 + self.words.len()
    }
    fn words(&self) -> &Lent<u64> {
        &self.words
    }
    fn words_mut(&mut self) -> &mut Lent<u64> {
        &mut self.words
    }
    fn get(&self, i: usize) -> u64 {
        if i < 5 { self.numbers[i] } else { self.words[i - 5] }
    }
    fn set(&mut self, i: usize, x: u64) -> bool {
        if i < 5 { self.numbers[i] = x } else { self.words[i - 5] = x }
        true
    }
    fn bits(&self, _: usize) -> u32 {
        64
    }
    fn name(&self, i: usize) -> String {
        if i < 5 { QUEUE_NUMBERS[i].to_string() } else { format!("cell {} word {}", (i - 5) / 8, (i - 5) % 8) }
    }
    fn store(&self) -> [u64; 3] {
        [self.numbers[2], self.numbers[3], self.numbers[4]]
    }
    fn passes(&self) -> Result<(), &'static str> {
        let n = &self.numbers;
        let store = rules::Store { words: &self.words, cells: n[2], free: n[3], counter: n[4] };
        rules::queue_passes(&rules::Queue { arity: n[0], count: n[1], store })
    }
    fn audit(&self) -> u64 {
        let (n, w) = (&self.numbers, &self.words);
        unsafe { wastelquib_test_queue_audit(w.as_ptr(), w.len(), n.as_ptr(), n.len()) }
    }
    fn call(&mut self, call: Call, _: &mut Lent<u64>) -> Result<Told, u64> {
        begin(call.number);
        let mut told = room_to_tell();
        let (n, w) = (&mut self.numbers, &mut self.words);
        let [a, b, c] = call.args;
        let given = unsafe {
            wastelquib_test_queue(w.as_mut_ptr(), w.len(), n.as_mut_ptr(), n.len(), told.as_mut_ptr(), 6, call.number, a, b, c)
        };
        told_of(given, &told)
    }
    fn unharmed(&self) -> bool {
        self.numbers.unharmed() && self.words.unharmed()
    }
    fn calls(&self, turn: u64) -> [Call; 5] {
        let (cell, ticket) = self.handle(turn);
        let key = [6, 0, u64::MAX][turn as usize % 3];
        [
            call("put", [[3, u64::MAX, 0][turn as usize % 3], 77, 0]),
            call("rekey", [cell, ticket, key]),
            call("remove", [cell, ticket, 0]),
            call("take", [0; 3]),
            call("first", [0; 3]),
        ]
    }
    fn with_counter(&self, counter: u64) -> Queue {
        let mut q = self.clone();
        q.numbers[4] = counter;
        q
    }
    fn expected(&self, call: Call, out: &Lent<u64>) -> Expected<Queue> {
        model_queue::expected(self, call, out)
    }
    fn fresh(&self, arity: u64) -> Queue {
        Model::fresh(self.words.len() as u64 / 8, arity).write(&self.words)
    }
    fn asks(&self) -> Vec<Ask> {
        asks::of_queue(self)
    }
}
