// The states that are damaged: each is reached by checked calls from a set-up, and must pass the rules.

use crate::doors::{call, Engine, Told};
use crate::lent::Lent;
use crate::queue_door::Queue;
use crate::rules::LAST_TICK;
use crate::wheel_door::Wheel;

pub struct State<E> {
    pub name: String,
    pub engine: E,
}

fn state<E: Engine>(name: &str, engine: E) -> State<E> {
    assert_eq!(engine.passes(), Ok(()), "{name}: the state breaks a rule");
    State { name: name.to_string(), engine }
}

fn accepted<E: Engine>(e: &mut E, name: &'static str, args: [u64; 3], room: usize) -> Told {
    let told = e.call(call(name, args), &mut Lent::filled(0, 4 * room)).expect("the slices fit");
    assert_ne!(told.kind, 0, "{name} {args:?} is refused with {}", told.numbers[0]);
    told
}

// Memory of n cells with some words beyond the last.
fn wheel(n: usize, rest: usize, start: u64) -> Wheel {
    let mut v = Wheel::blank(8 * n + rest);
    accepted(&mut v, "set-up", [start, 0, 0], 0);
    v
}

impl Wheel {
    fn arm(&mut self, deadline: u64) -> (u64, u64) {
        let told = accepted(self, "arm", [deadline, deadline + 1000, 0], 0);
        (told.numbers[0], told.numbers[1])
    }
    fn arm_all(&mut self, deadlines: &[u64]) -> Vec<(u64, u64)> {
        deadlines.iter().map(|&e| self.arm(e)).collect()
    }
    fn move_to(&mut self, h: (u64, u64), deadline: u64) {
        accepted(self, "move", [h.0, h.1, deadline], 0);
    }
    fn cancel(&mut self, h: (u64, u64)) {
        accepted(self, "cancel", [h.0, h.1, 0], 0);
    }
    // Kind 1 is done, 2 is more.
    fn advance(&mut self, target: u64, room: usize, kind: u64) {
        assert_eq!(accepted(self, "advance", [target, 0, 0], room).kind, kind, "advance to {target}");
    }
}

// Entries at all six levels.
fn all_levels() -> Wheel {
    let mut v = wheel(6, 1, 0);
    v.arm_all(&[1, 64, 4096, 262_144, 16_777_216, LAST_TICK]);
    v
}

// Several entries in one slot, two of equal deadline, with order numbers that moves have made leave gaps.
fn shared_slot() -> Wheel {
    let mut v = wheel(7, 2, 0);
    let h = v.arm_all(&[4161, 4161, 4100, 4161, 9]);
    v.move_to(h[1], 4161);
    v.move_to(h[4], 10);
    let last = v.arm(5000);
    v.cancel(last);
    v
}

// An advance answered more: three of four equals are due, one was moved away and one has a later deadline.
fn due_list() -> Wheel {
    let mut v = wheel(7, 3, 5);
    let h = v.arm_all(&[70, 70, 70, 70, 70, 71, 6000]);
    v.advance(100, 1, 2);
    v.move_to(h[2], 200);
    v.move_to(h[5], 74);
    v
}

// The due list with room 0, in which all that are due stay.
fn due_no_room() -> Wheel {
    let mut v = wheel(4, 4, 0);
    v.arm_all(&[64, 64, 90]);
    v.advance(80, 0, 2);
    v
}

// Cancels have put the free stack out of order.
fn stack_out_of_order() -> Wheel {
    let mut v = wheel(7, 5, 1000);
    let h = v.arm_all(&[1001, 1100, 1100, 70_000, 1001, 1063]);
    v.cancel(h[3]);
    v.cancel(h[0]);
    v.cancel(h[2]);
    v
}

// A slot was walked, and its entries went to lower places in turn.
fn cascaded() -> Wheel {
    let mut v = wheel(6, 6, 0);
    v.arm_all(&[4161, 4162, 4161, 4200, 50, 300_000]);
    v.advance(4100, 2, 1);
    v
}

// The clock at the last tick, everything due.
fn at_the_end() -> Wheel {
    let mut v = wheel(3, 7, LAST_TICK - 70);
    v.arm_all(&[LAST_TICK, LAST_TICK]);
    v.advance(LAST_TICK, 0, 2);
    v
}

// Words beyond the last cell, which no rule speaks of.
fn with_rest() -> Wheel {
    let mut v = wheel(3, 5, 100);
    v.arm_all(&[130, 5000]);
    v
}

fn spent() -> Wheel {
    let mut v = wheel(3, 0, 7);
    v.arm_all(&[8, 8]);
    v.numbers[5] = u64::MAX;
    v
}

pub fn wheels() -> Vec<State<Wheel>> {
    let mut some = wheel(5, 0, 100);
    some.arm_all(&[101, 130, 5000]);
    let mut one = wheel(1, 7, 0);
    one.arm(63);
    let mut equals = wheel(4, 0, 0);
    equals.arm_all(&[64, 64, 64, 64]);
    vec![
        state("wheel, empty", wheel(4, 0, 0)),
        state("wheel, empty at the last tick", wheel(2, 0, LAST_TICK)),
        state("wheel, some armed", some),
        state("wheel, one cell in use", one),
        state("wheel, full, all levels", all_levels()),
        state("wheel, full, equal deadlines", equals),
        state("wheel, several in one slot", shared_slot()),
        state("wheel, after more", due_list()),
        state("wheel, after more with no room", due_no_room()),
        state("wheel, after cancels", stack_out_of_order()),
        state("wheel, after a cascade", cascaded()),
        state("wheel, due at the last tick", at_the_end()),
        state("wheel, words beyond the last cell", with_rest()),
        state("wheel, the counter spent", spent()),
    ]
}

fn queue(n: usize, rest: usize, arity: u64) -> Queue {
    let mut q = Queue::blank(8 * n + rest);
    accepted(&mut q, "set-up", [arity, 0, 0], 0);
    q
}

impl Queue {
    fn put(&mut self, key: u64) -> (u64, u64) {
        let told = accepted(self, "put", [key, key ^ 5000, 0], 0);
        (told.numbers[0], told.numbers[1])
    }
    fn put_all(&mut self, keys: &[u64]) -> Vec<(u64, u64)> {
        keys.iter().map(|&k| self.put(k)).collect()
    }
    fn rekey(&mut self, h: (u64, u64), key: u64) {
        accepted(self, "rekey", [h.0, h.1, key], 0);
    }
    fn remove(&mut self, h: (u64, u64)) {
        accepted(self, "remove", [h.0, h.1, 0], 0);
    }
    fn take(&mut self) {
        accepted(self, "take", [0; 3], 0);
    }
}

// Rekeys up, down and to an equal key, removes from the middle and the end, and a take.
fn worked(arity: u64, rest: usize) -> Queue {
    let mut q = queue(13, rest, arity);
    let h = q.put_all(&[5, 3, 5, 1, 8, 5, 2, 9, 9, 5, 7, 0]);
    q.rekey(h[8], 4);
    q.rekey(h[3], 9);
    q.rekey(h[2], 5);
    q.remove(h[4]);
    q.take();
    q.remove(h[9]);
    q
}

pub fn queues() -> Vec<State<Queue>> {
    let mut all = Vec::new();
    for arity in [2, 3, 8] {
        let rest = arity as usize - 1;
        let mut some = queue(6, rest, arity);
        some.put_all(&[5, 3, 5, 1]);
        let mut full = queue(11, 0, arity);
        full.put_all(&[5, 5, 5, 4, 5, u64::MAX, 0, 5, 6, 5, 5]);
        let mut equals = queue(5, 3, arity);
        equals.put_all(&[7, 7, 7, 7, 7]);
        all.push(state(&format!("queue of arity {arity}, empty"), queue(4, 0, arity)));
        all.push(state(&format!("queue of arity {arity}, some"), some));
        all.push(state(&format!("queue of arity {arity}, full"), full));
        all.push(state(&format!("queue of arity {arity}, equal keys"), equals));
        all.push(state(&format!("queue of arity {arity}, after rekeys and removes"), worked(arity, 8 - arity as usize)));
    }
    let mut one = queue(1, 0, 2);
    one.put(4);
    let mut spent = worked(4, 0);
    spent.numbers[4] = u64::MAX;
    all.push(state("queue, one cell in use", one));
    all.push(state("queue, words beyond the last cell", worked(5, 6)));
    all.push(state("queue, the counter spent", spent));
    all
}

// The largest memory with some eighty entries, since each call is compared with a model: of this one only some words are damaged.
pub fn large_wheel() -> State<Wheel> {
    let mut v = wheel(4096, 3, 1);
    let mut handles = Vec::new();
    for i in 0..120u64 {
        handles.push(v.arm(2 + i * i * i % 9000));
    }
    for h in handles.iter().step_by(3) {
        v.cancel(*h);
    }
    state("wheel of 4,096 cells", v)
}

pub fn large_queue() -> State<Queue> {
    let mut q = queue(4096, 5, 4);
    let mut handles = Vec::new();
    for i in 0..120u64 {
        handles.push(q.put(i * i * i % 97));
    }
    for h in handles.iter().step_by(3) {
        q.remove(*h);
    }
    state("queue of 4,096 cells", q)
}
