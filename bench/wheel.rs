// How long the wheel takes for a call, beside tokio-util's timing wheel over its own slab and stacks: one trace of arms, cancels, moves and advances
// through both, with equal sums of what came out, and the ratio of their times. Build and run by bench/run, which links tokio-util's source into
// target/bench/tokio.
#![allow(dead_code, unexpected_cfgs, unused_imports)]
use std::collections::BTreeSet;
use std::time::Instant;

// tokio-util's source names these crates. Only its DelayQueue uses what is named, and no DelayQueue is made here: the wheel needs no clock of its own.
extern crate self as futures_core;
extern crate self as tokio;

macro_rules! ready {
    ($e:expr) => {
        match $e {
            std::task::Poll::Ready(x) => x,
            std::task::Poll::Pending => return std::task::Poll::Pending,
        }
    };
}
pub(crate) use ready;

pub trait Stream {
    type Item;
    fn poll_next(self: std::pin::Pin<&mut Self>, cx: &mut std::task::Context<'_>) -> std::task::Poll<Option<Self::Item>>;
}

#[path = "../target/bench/tokio"]
mod time {
    pub use std::time::{Duration, Instant};

    #[path = "wheel/mod.rs"]
    pub mod wheel;

    #[derive(Debug)]
    pub struct Sleep(Instant);
    impl Sleep {
        pub fn deadline(&self) -> Instant {
            self.0
        }
        pub fn is_elapsed(&self) -> bool {
            true
        }
        pub fn reset(self: std::pin::Pin<&mut Self>, at: Instant) {
            self.get_mut().0 = at;
        }
    }
    impl std::future::Future for Sleep {
        type Output = ();
        fn poll(self: std::pin::Pin<&mut Self>, _: &mut std::task::Context<'_>) -> std::task::Poll<()> {
            std::task::Poll::Ready(())
        }
    }
    pub fn sleep_until(at: Instant) -> Sleep {
        Sleep(at)
    }
    pub enum Round {
        Up,
        Down,
    }
    pub fn ms(_: Duration, _: Round) -> u64 {
        0
    }

    pub mod queue {
        include!("../target/bench/tokio/delay_queue.rs");

        // What DelayQueue's insert, remove, reset and poll do with its wheel and its slab, without their sleeping and waking.
        pub struct Timers {
            wheel: Wheel<Stack<u64>>,
            slab: SlabStorage<u64>,
        }

        impl Timers {
            pub fn new(n: usize) -> Timers {
                Timers {
                    wheel: Wheel::new(),
                    slab: SlabStorage::with_capacity(n),
                }
            }
            pub fn arm(&mut self, when: u64, load: u64) -> Key {
                let key = self.slab.insert(Data {
                    inner: load,
                    when,
                    expired: false,
                    next: None,
                    prev: None,
                });
                self.wheel.insert(when, key, &mut self.slab).ok().unwrap();
                key
            }
            pub fn cancel(&mut self, key: Key) -> u64 {
                self.wheel.remove(&key, &mut self.slab);
                self.slab.remove(&key).inner
            }
            pub fn move_to(&mut self, key: Key, when: u64) {
                self.wheel.remove(&key, &mut self.slab);
                self.slab[key].when = when;
                self.wheel.insert(when, key, &mut self.slab).ok().unwrap();
            }
            // The next that is due up to now: its deadline and its load.
            pub fn next(&mut self, now: u64) -> Option<(u64, u64)> {
                self.wheel.poll(now, &mut self.slab).map(|key| {
                    let data = self.slab.remove(&key);
                    (data.when, data.inner)
                })
            }
        }

        pub fn no_key() -> Key {
            Key::new(0)
        }
    }
}

use time::queue::{no_key, Key, Timers};

extern "C" {
    fn wastelquib_wheel_trace(
        w: *mut u64,
        w_len: usize,
        first: *mut u16,
        first_len: usize,
        last: *mut u16,
        last_len: usize,
        marks: *mut u64,
        marks_len: usize,
        out: *mut u64,
        out_len: usize,
        trace: *const u64,
        trace_len: usize,
        handles: *mut u64,
        handles_len: usize,
    ) -> u64;
}

const ARM: u64 = 0;
const CANCEL: u64 = 1;
const MOVE: u64 = 2;
const ADVANCE: u64 = 3;

// A small generator of numbers, so that runs repeat.
struct Numbers(u64);
impl Numbers {
    fn below(&mut self, n: u64) -> u64 {
        self.0 ^= self.0 << 13;
        self.0 ^= self.0 >> 7;
        self.0 ^= self.0 << 17;
        self.0 % n
    }
}

// A trace: two words to an operation, the slot times 4 with the kind, then the tick.
struct Trace {
    words: Vec<u64>,
    count: [u64; 4],
    fired: u64,
}

// The timers as an ordered set, to know at each step which slots are live.
struct Simulation {
    timers: BTreeSet<(u64, u64)>, // deadline and slot
    at: Vec<u64>,                 // of a live slot: its deadline
    live: Vec<u64>,
    place: Vec<usize>,
    idle: Vec<u64>,
    clock: u64,
}

impl Simulation {
    fn new(n: u64) -> Simulation {
        Simulation {
            timers: BTreeSet::new(),
            at: vec![0; n as usize],
            live: Vec::new(),
            place: vec![0; n as usize],
            idle: (0..n).rev().collect(),
            clock: 0,
        }
    }
    fn arm(&mut self, tick: u64) -> u64 {
        let s = self.idle.pop().unwrap();
        self.place[s as usize] = self.live.len();
        self.live.push(s);
        self.at[s as usize] = tick;
        self.timers.insert((tick, s));
        s
    }
    fn leave(&mut self, s: u64) {
        self.timers.remove(&(self.at[s as usize], s));
        let last = *self.live.last().unwrap();
        let place = self.place[s as usize];
        self.live[place] = last;
        self.place[last as usize] = place;
        self.live.pop();
        self.idle.push(s);
    }
    fn move_to(&mut self, s: u64, tick: u64) {
        self.timers.remove(&(self.at[s as usize], s));
        self.at[s as usize] = tick;
        self.timers.insert((tick, s));
    }
    // How many are fired.
    fn advance(&mut self, target: u64) -> u64 {
        let mut fired = 0;
        while let Some(&(tick, s)) = self.timers.first() {
            if tick > target {
                break;
            }
            self.leave(s);
            fired += 1;
        }
        self.clock = target;
        fired
    }
}

// First n arms; then `more` operations at about three quarters of n to n live timers: about a third each of arms, of moves, and of advances and cancels, two
// to one. A deadline is 1 to `horizon` ticks past the clock. An advance goes at least one tick, and so far that on average about one timer is due.
fn make_trace(n: u64, horizon: u64, more: u64) -> Trace {
    let mut t = Trace { words: Vec::new(), count: [0; 4], fired: 0 };
    let mut q = Simulation::new(n);
    let mut r = Numbers(88172645463325252);
    let add = |t: &mut Trace, kind: u64, slot: u64, tick: u64| {
        assert!(tick < 1 << 36);
        t.words.push(slot * 4 + kind);
        t.words.push(tick);
        t.count[kind as usize] += 1;
    };
    for i in 0..n + more {
        let dice = r.below(9);
        let (full, low) = (q.live.len() as u64 == n, q.live.len() as u64 <= n * 3 / 4);
        let tick = q.clock + 1 + r.below(horizon);
        if i < n {
            let s = q.arm(tick);
            add(&mut t, ARM, s, tick);
        } else if dice < 3 {
            let s = q.live[r.below(q.live.len() as u64) as usize];
            q.move_to(s, tick);
            add(&mut t, MOVE, s, tick);
        } else if low || (dice < 6 && !full) {
            let s = q.arm(tick);
            add(&mut t, ARM, s, tick);
        } else if dice == 8 {
            let s = q.live[r.below(q.live.len() as u64) as usize];
            q.leave(s);
            add(&mut t, CANCEL, s, 0);
        } else {
            let target = q.clock + 1 + r.below((horizon / n).max(1));
            t.fired += q.advance(target);
            add(&mut t, ADVANCE, 0, target);
        }
    }
    t
}

fn mix(sum: u64, x: u64) -> u64 {
    sum % 4294967296 * 31 + x % 4294967296
}

fn blend(loads: u64, deadline: u64, load: u64) -> u64 {
    loads % 4294967296 + mix(deadline, load) % 1048573
}

// tokio's order within one tick is not ours: the sum in which order counts is of deadlines, the other of deadlines with their loads.
#[inline(never)]
fn their_trace(n: u64, t: &Trace) -> u64 {
    let mut timers = Timers::new(n as usize);
    let mut keys: Vec<Key> = vec![no_key(); n as usize];
    let (mut sum, mut loads) = (0, 0);
    for (i, o) in t.words.chunks_exact(2).enumerate() {
        let (kind, slot, tick) = (o[0] % 4, (o[0] / 4) as usize, o[1]);
        if kind == ARM {
            keys[slot] = timers.arm(tick, i as u64);
        } else if kind == CANCEL {
            sum = mix(sum, timers.cancel(keys[slot]));
        } else if kind == MOVE {
            timers.move_to(keys[slot], tick);
        } else {
            sum = mix(sum, tick);
            while let Some((deadline, load)) = timers.next(tick) {
                sum = mix(sum, deadline);
                loads = blend(loads, deadline, load);
            }
        }
    }
    mix(sum, loads)
}

struct Memory {
    words: Vec<u64>,
    first: Vec<u16>,
    last: Vec<u16>,
    marks: Vec<u64>,
    out: Vec<u64>,
    handles: Vec<u64>,
}

impl Memory {
    fn new(n: u64) -> Memory {
        let n = n as usize;
        Memory {
            words: vec![0; 8 * n],
            first: vec![0; 384],
            last: vec![0; 384],
            marks: vec![0; 6],
            out: vec![0; 4 * n],
            handles: vec![0; 2 * n],
        }
    }
}

#[inline(never)]
fn our_trace(m: &mut Memory, t: &Trace) -> u64 {
    m.first.fill(4096);
    m.last.fill(4096);
    m.marks.fill(0);
    unsafe {
        wastelquib_wheel_trace(
            m.words.as_mut_ptr(),
            m.words.len(),
            m.first.as_mut_ptr(),
            m.first.len(),
            m.last.as_mut_ptr(),
            m.last.len(),
            m.marks.as_mut_ptr(),
            m.marks.len(),
            m.out.as_mut_ptr(),
            m.out.len(),
            t.words.as_ptr(),
            t.words.len(),
            m.handles.as_mut_ptr(),
            m.handles.len(),
        )
    }
}

fn time_ns<F: FnMut() -> u64>(operations: usize, expected: u64, mut side: F) -> f64 {
    let start = Instant::now();
    let sum = side();
    let ns = start.elapsed().as_nanos() as f64;
    assert_eq!(sum, expected, "the sums differ");
    ns / operations as f64
}

// `wheel` measures all. `wheel SIDE LIVE HORIZON TURNS` runs one side only, to be profiled.
fn main() {
    let words: Vec<String> = std::env::args().collect();
    let more = 160_000;
    if words.len() == 5 {
        let (n, horizon, turns): (u64, u64, u64) = (words[2].parse().unwrap(), words[3].parse().unwrap(), words[4].parse().unwrap());
        let t = make_trace(n, horizon, more);
        let mut m = Memory::new(n);
        let mut sum = 0;
        for _ in 0..turns {
            sum = if words[1] == "ours" { our_trace(&mut m, &t) } else { their_trace(n, &t) };
        }
        println!("{} operations, arms cancels moves advances {:?}, {} fired, sum {sum}", turns * t.words.len() as u64 / 2, t.count, t.fired);
        return;
    }
    println!("live horizon ours_ns tokio_ns ratio fired_per_operation");
    for n in [64, 512, 4000] {
        for horizon in [1_000, 100_000, 100_000_000] {
            let t = make_trace(n, horizon, more);
            let operations = t.words.len() / 2;
            let mut m = Memory::new(n);
            let expected = their_trace(n, &t);
            let (mut ours, mut theirs) = (f64::MAX, f64::MAX);
            for _ in 0..60 {
                ours = ours.min(time_ns(operations, expected, || our_trace(&mut m, &t)));
                theirs = theirs.min(time_ns(operations, expected, || their_trace(n, &t)));
            }
            println!("{n} {horizon} {ours:.1} {theirs:.1} {:.2} {:.2}", ours / theirs, t.fired as f64 / operations as f64);
        }
    }
}
