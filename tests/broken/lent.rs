// Lent slices with guard words on both sides, which no call may change, and a watch that ends a run whose call does not come back.

use std::ops::{Deref, DerefMut};
use std::sync::atomic::{AtomicU64, Ordering};

const GUARD: usize = 8;

// The guard words, then the slice, then guard words again. Two are equal if their guard words are too.
#[derive(PartialEq, Debug)]
pub struct Lent<T> {
    all: Vec<T>,
}

pub trait Word: Copy + PartialEq {
    const GUARD: Self;
}

impl Word for u64 {
    const GUARD: u64 = 0xA5A5_5A5A_0FF0_C33C;
}

impl Word for u16 {
    const GUARD: u16 = 0xA55A;
}

impl<T: Word> Lent<T> {
    pub fn of(slice: &[T]) -> Lent<T> {
        let guard = [T::GUARD; GUARD];
        Lent { all: [&guard, slice, &guard].concat() }
    }
    pub fn filled(x: T, len: usize) -> Lent<T> {
        Lent::of(&vec![x; len])
    }
    pub fn resize(&mut self, len: usize, x: T) {
        let mut slice = self.to_vec();
        slice.resize(len, x);
        *self = Lent::of(&slice);
    }
    pub fn unharmed(&self) -> bool {
        let end = self.all.len() - GUARD;
        self.all[..GUARD].iter().chain(&self.all[end..]).all(|&x| x == T::GUARD)
    }
}

impl Lent<u64> {
    // Words that all differ, by which a word that was written shows.
    pub fn pattern(len: usize) -> Lent<u64> {
        let words: Vec<u64> = (0..len as u64).map(|i| 0xC0DE_0000_0000_1000 + 3 * i).collect();
        Lent::of(&words)
    }
}

impl<T: Clone> Clone for Lent<T> {
    fn clone(&self) -> Lent<T> {
        Lent { all: self.all.clone() }
    }
    fn clone_from(&mut self, from: &Lent<T>) {
        self.all.clone_from(&from.all);
    }
}

impl<T> Deref for Lent<T> {
    type Target = [T];
    fn deref(&self) -> &[T] {
        &self.all[GUARD..self.all.len() - GUARD]
    }
}

impl<T> DerefMut for Lent<T> {
    fn deref_mut(&mut self) -> &mut [T] {
        let end = self.all.len() - GUARD;
        &mut self.all[GUARD..end]
    }
}

// How many calls were begun, and what the last one was.
static BEGUN: AtomicU64 = AtomicU64::new(0);
static LAST: AtomicU64 = AtomicU64::new(0);

// Says that a call begins.
pub fn begin(number: u64) {
    BEGUN.fetch_add(1, Ordering::Relaxed);
    LAST.store(number, Ordering::Relaxed);
}

// Ends the run as failed when no call has begun for two minutes: the last one has not come back.
pub fn watch() {
    std::thread::spawn(|| {
        let mut before = u64::MAX;
        loop {
            let begun = BEGUN.load(Ordering::Relaxed);
            if begun == before {
                println!("DIFFERS: call {begun}, number {} at its door, does not end", LAST.load(Ordering::Relaxed));
                std::process::exit(1);
            }
            before = begun;
            std::thread::sleep(std::time::Duration::from_secs(120));
        }
    });
}
