// Damages head and memory of both engines word by word and asks every call and the audit. The checked calls must answer 9, or the audit no, exactly
// if a rule of rules.rs is broken, and a call that answers 9 must leave head, memory and output as they were; the quick calls must come back and keep
// to what is lent. Where no rule is broken, checked and quick calls must answer and leave what the models of document 01 say. Built and run by
// tests/broken-memory.

mod asks;
mod count;
mod damage;
mod doors;
mod lent;
mod made;
mod model;
mod model_queue;
mod model_wheel;
mod queue_door;
mod rules;
mod sound;
mod states;
mod tables;
mod wheel_door;

use count::Count;
use doors::Engine;
use queue_door::Queue;
use states::State;
use wheel_door::Wheel;

// How many states of each engine are made at random, and how many of the largest memory are changed many times for quick calls alone.
const MADE: u64 = 1500;
const LARGE: u64 = 4;

impl Count {
    // Every word with every value, and the swaps. `cells` is the head's number of cells.
    fn damage_all<E: Engine>(&mut self, s: &State<E>, cells: usize) {
        self.states += 1;
        self.ask_all(&s.engine, &|| s.name.clone());
        let mut e = s.engine.clone();
        let mut scratch = e.clone();
        for i in 0..e.size() {
            let old = e.get(i);
            for x in damage::values(&s.engine, i) {
                if e.set(i, x) {
                    self.try_one(&e, &mut scratch, &|| format!("{}: {} from {old} to {x}", s.name, s.engine.name(i)));
                }
            }
            e.set(i, old);
        }
        for (i, j) in damage::swaps(&s.engine) {
            let (x, y) = (e.get(i), e.get(j));
            if e.set(i, y) && e.set(j, x) {
                self.try_one(&e, &mut scratch, &|| format!("{}: {} and {} swapped", s.name, s.engine.name(i), s.engine.name(j)));
            }
            e.set(i, x);
            e.set(j, y);
        }
        let others = damage::lengths(&s.engine);
        for e in others.iter().chain(&damage::recounted(&others, cells)) {
            self.try_one(e, &mut scratch, &|| format!("{}: {} words, {} cells", s.name, e.words().len(), e.get(cells)));
        }
    }

    // The largest memory: every number of the head, and all words of a few cells, with a few values.
    fn damage_some<E: Engine>(&mut self, s: &State<E>, numbers: usize) {
        self.states += 1;
        self.ask_all(&s.engine, &|| s.name.clone());
        let head = s.engine.head_size();
        let mut scratch = s.engine.clone();
        let cells = [0, 1, 2, 3, 119, 120, 121, 4094, 4095].map(|c| head + 8 * c);
        let words = cells.iter().flat_map(|&i| i..i + 8);
        for i in (0..numbers).chain(words).chain(head + 8 * 4096..s.engine.size()) {
            for x in [0, 1, s.engine.get(i) + 1, 4095, 4096, 4097] {
                let mut e = s.engine.clone();
                if x != e.get(i) && e.set(i, x) {
                    self.try_one(&e, &mut scratch, &|| format!("{}: {} to {x}", s.name, e.name(i)));
                }
            }
        }
    }

    // A state made at random: it must pass, and then up to three of its words are changed at once, again and again.
    fn damage_made<E: Engine>(&mut self, made: E, turns: u64, dice: &mut made::Dice) {
        self.states += 1;
        let counter = [made.store()[2], u64::MAX - 1, u64::MAX][self.states as usize % 3];
        self.ask_with(&made, counter, &|| "a made state".to_string());
        let mut scratch = made.clone();
        self.try_one(&made, &mut scratch, &|| "a made state".to_string());
        for turn in 0..turns {
            let mut e = made.clone();
            let mut told = String::from("a made state");
            for _ in 0..=turn % 3 {
                let i = any_word(&e, dice);
                let x = dice.one_of(&damage::values(&made, i));
                if e.set(i, x) {
                    told += &format!(", {} to {x}", e.name(i));
                }
            }
            if e != made {
                self.try_one(&e, &mut scratch, &|| told.clone());
            }
        }
    }

    // Quick calls on the largest memory with many words changed: links to any cell, positions, ends, loads.
    fn quick_only<E: Engine>(&mut self, made: &E, words: u64, dice: &mut made::Dice) {
        let mut e = made.clone();
        for _ in 0..words {
            let i = any_word(&e, dice);
            let random = dice.next();
            let x = dice.one_of(&[random % 4097, random % 4097, random % 64, random]);
            e.set(i, x);
        }
        self.try_quick(&e, &mut made.clone(), &|| format!("{words} words of the largest memory changed"));
    }
}

// A word of the head at one turn of four, else of the memory.
fn any_word<E: Engine>(e: &E, dice: &mut made::Dice) -> usize {
    if dice.below(4) == 0 {
        return dice.below(e.head_size() as u64) as usize;
    }
    e.head_size() + dice.below(e.words().len() as u64) as usize
}

fn set_ups(count: &mut Count) {
    for len in [0, 7, 8 * 4097] {
        count.refuses_set_up(Wheel::blank(len), 0, 1);
        count.refuses_set_up(Wheel::blank(len), rules::LAST_TICK + 1, 1);
        count.refuses_set_up(Queue::blank(len), 9, 1);
    }
    count.refuses_set_up(Wheel::blank(16), rules::LAST_TICK + 1, 5);
    for arity in [0, 1, 9, u64::MAX] {
        count.refuses_set_up(Queue::blank(16), arity, 2);
    }
    for len in (8..42).chain(8 * 4096..8 * 4097) {
        for start in [0, 4161, rules::LAST_TICK] {
            count.accepts_set_up(Wheel::blank(len), start);
        }
        for arity in 2..=8 {
            count.accepts_set_up(Queue::blank(len), arity);
        }
    }
}

fn other_slices(count: &mut Count) {
    let wheel = &states::wheels()[2].engine;
    for change in 0..8 {
        let mut v = wheel.clone();
        let longer = change % 2 == 1;
        match change / 2 {
            0 => v.first.resize(if longer { 385 } else { 383 }, 4096),
            1 => v.last.resize(if longer { 385 } else { 383 }, 4096),
            2 => v.marks.resize(if longer { 7 } else { 5 }, 0),
            _ => v.numbers.resize(if longer { 7 } else { 5 }, 0),
        }
        count.misfits(v);
    }
    for length in [4, 6] {
        let mut q = states::queues()[1].engine.clone();
        q.numbers.resize(length, 0);
        count.misfits(q);
    }
}

// Small states made at random, then the largest memory, all of it in use and all but one cell.
fn made_states(count: &mut Count) {
    let mut dice = made::Dice(88_172_645_463_325_252);
    for turn in 0..MADE + 2 {
        let n = if turn < MADE { 1 + dice.below(9) } else { 4096 };
        let free = if turn < MADE { dice.below(n + 1) } else { turn - MADE };
        let turns = if turn < MADE { 40 } else { 6 };
        let wheel = made::wheel(&mut dice, n, free);
        count.damage_made(wheel, turns, &mut dice);
        let queue = made::queue(&mut dice, n, free);
        count.damage_made(queue, turns, &mut dice);
    }
    for turn in 0..LARGE {
        let wheel = made::wheel(&mut dice, 4096, turn);
        let queue = made::queue(&mut dice, 4096, turn);
        for words in (0..60).map(|i| [1, 20, 1000, 30_000][i % 4]) {
            count.quick_only(&wheel, words, &mut dice);
            count.quick_only(&queue, words, &mut dice);
        }
    }
}

fn main() {
    lent::watch();
    let mut count = Count::default();
    set_ups(&mut count);
    other_slices(&mut count);
    for s in &states::wheels() {
        count.damage_all(s, 3);
    }
    for s in &states::queues() {
        count.damage_all(s, 2);
    }
    count.damage_some(&states::large_wheel(), 12);
    count.damage_some(&states::large_queue(), 5);
    made_states(&mut count);
    tables::numbers(&mut count);
    tables::lists(&mut count);
    for (family, [sound, broken]) in count.met.clone() {
        println!("{sound:8}  sound and {broken} broken: {family}");
        if sound == 0 || broken == 0 {
            count.differs(format!("not tried in both ways: {family}"));
        }
    }
    for rule in rules::names() {
        let times = count.rules.get(rule).copied().unwrap_or(0);
        println!("{times:8}  {rule}");
        if times == 0 {
            count.differs(format!("no damage broke the rule: {rule}"));
        }
    }
    count.all_given();
    println!("{:8}  checked calls", count.calls);
    println!("{:8}  checked and quick calls compared with the model, {} states with every call", 2 * count.asked, count.sound);
    let (s, d, r, a, q) = (count.states, count.damages, count.refused, count.accepted, count.quick + count.asked);
    let start = format!("broken memory: {s} states, {d} damages, {r} refused, {a} accepted, {q} quick calls");
    if !count.differences.is_empty() {
        println!("{start}, {} differences", count.differences.len());
        std::process::exit(1);
    }
    println!("{start}, every answer as the rules say");
}
