// The audit's rules, read from document 01 ("Audit, checked calls and quick calls", "Places on the wheel", "The heap's steps") and
// docs/LAYOUT.md alone, one function to a rule. Plain rather than fast: they are the second opinion on the proved audit. Rules are tried in
// order and the first broken one is named, so that a rule may lean on those above it.
//
// "Each cell is free or in use" has no function: by the layout word 0 decides, and there is no third.

use std::collections::BTreeMap;

pub const LAST_TICK: u64 = 68_719_476_735;
pub const NO_CELL: u64 = 4096;
pub const DUE: usize = 384;

// Memory with the cell store's head.
pub struct Store<'a> {
    pub words: &'a [u64],
    pub cells: u64,
    pub free: u64,
    pub counter: u64,
}

pub struct Queue<'a> {
    pub arity: u64,
    pub count: u64,
    pub store: Store<'a>,
}

// The ends of list i are first(i) and last(i); list 384 is the due list.
pub struct Wheel<'a> {
    pub first: &'a [u16],
    pub last: &'a [u16],
    pub marks: &'a [u64],
    pub clock: u64,
    pub due: (u64, u64),
    pub store: Store<'a>,
}

type Rule<T> = (&'static str, fn(&T) -> bool);

fn shared<'a>() -> [Rule<Store<'a>>; 6] {
    [
        ("N is floor(L/8), 1 to 4,096", right_size),
        ("the counter is at least 1", counter_started),
        ("the free cells stand once each in the free stack and nothing else does", free_cells_stacked),
        ("1 <= ticket <= order number < counter", numbers_rise),
        ("tickets differ", tickets_differ),
        ("order numbers differ", orders_differ),
    ]
}

fn queue<'a>() -> [Rule<Queue<'a>>; 7] {
    [
        ("queue: unused words of an entry are zero", |q| q.store.entries().all(|c| q.store.zero(c, &[4, 7]))),
        ("queue: words of a free cell are zero", |q| q.store.free_cells().all(|c| q.store.zero(c, &[0, 1, 2, 3, 5, 7]))),
        ("queue: arity 2 to 8", |q| (2..=8).contains(&q.arity)),
        ("queue: each entry at one position, 0 to n-1 filled", positions_filled),
        ("queue: the position table is zero from n up", table_ends),
        ("queue: each entry knows its position", positions_known),
        ("queue: none is before its parent", heap_ordered),
    ]
}

fn wheel<'a>() -> [Rule<Wheel<'a>>; 10] {
    [
        ("wheel: unused words of an entry are zero", |v| v.store.entries().all(|c| v.store.zero(c, &[6, 7]))),
        ("wheel: words of a free cell are zero", |v| v.store.free_cells().all(|c| v.store.zero(c, &[0, 1, 2, 3, 5, 6, 7]))),
        ("wheel: the clock is at most the last tick", |v| v.clock <= LAST_TICK),
        ("wheel: deadlines are at most the last tick", |v| v.store.entries().all(|c| v.store.word(c, 2) <= LAST_TICK)),
        ("wheel: no deadline is below the clock", |v| v.store.entries().all(|c| v.store.word(c, 2) >= v.clock)),
        ("wheel: a list holds entries and ends", |v| (0..=DUE).all(|i| forward(v, i).is_some())),
        ("wheel: each entry once in the list of its place, in no other", entries_placed),
        ("wheel: linked both ways", linked_both_ways),
        ("wheel: a slot is marked exactly if its list isn't empty", marks_right),
        ("wheel: equal deadlines by rising order number", equals_rise),
    ]
}

pub fn names() -> Vec<&'static str> {
    shared().map(|r| r.0).into_iter().chain(queue().map(|r| r.0)).chain(wheel().map(|r| r.0)).collect()
}

fn keeps<T>(rules: &[Rule<T>], x: &T) -> Result<(), &'static str> {
    match rules.iter().find(|r| !(r.1)(x)) {
        Some(r) => Err(r.0),
        None => Ok(()),
    }
}

pub fn queue_passes(q: &Queue) -> Result<(), &'static str> {
    keeps(&shared(), &q.store)?;
    keeps(&queue(), q)
}

pub fn wheel_passes(v: &Wheel) -> Result<(), &'static str> {
    keeps(&shared(), &v.store)?;
    keeps(&wheel(), v)
}

impl<'a> Store<'a> {
    pub fn word(&self, c: u64, field: u64) -> u64 {
        self.words[(8 * c + field) as usize]
    }
    fn in_use(&self, c: u64) -> bool {
        self.word(c, 0) != 0
    }
    fn is_entry(&self, c: u64) -> bool {
        c < self.cells && self.in_use(c)
    }
    pub fn entries(&self) -> impl Iterator<Item = u64> + '_ {
        (0..self.cells).filter(|&c| self.in_use(c))
    }
    fn free_cells(&self) -> impl Iterator<Item = u64> + '_ {
        (0..self.cells).filter(|&c| !self.in_use(c))
    }
    fn zero(&self, c: u64, fields: &[u64]) -> bool {
        fields.iter().all(|&f| self.word(c, f) == 0)
    }
    // Entry x is before y if its key or deadline is smaller, or equal with the smaller order number.
    fn before(&self, x: u64, y: u64) -> bool {
        (self.word(x, 2), self.word(x, 1)) < (self.word(y, 2), self.word(y, 1))
    }
    // Whether no two entries have the same number in this field.
    fn differ(&self, field: u64) -> bool {
        let mut all: Vec<u64> = self.entries().map(|c| self.word(c, field)).collect();
        all.sort_unstable();
        all.windows(2).all(|two| two[0] != two[1])
    }
}

fn right_size(m: &Store) -> bool {
    m.cells == m.words.len() as u64 / 8 && (1..=4096).contains(&m.cells)
}

fn counter_started(m: &Store) -> bool {
    m.counter >= 1
}

fn free_cells_stacked(m: &Store) -> bool {
    let mut times = vec![0; m.cells as usize];
    let mut c = m.free;
    while c != NO_CELL {
        if c >= m.cells || m.in_use(c) || times[c as usize] == 1 {
            return false;
        }
        times[c as usize] += 1;
        c = m.word(c, 4);
    }
    m.free_cells().all(|c| times[c as usize] == 1)
}

fn numbers_rise(m: &Store) -> bool {
    m.entries().all(|c| 1 <= m.word(c, 0) && m.word(c, 0) <= m.word(c, 1) && m.word(c, 1) < m.counter)
}

fn tickets_differ(m: &Store) -> bool {
    m.differ(0)
}

fn orders_differ(m: &Store) -> bool {
    m.differ(1)
}

// The cell at heap position p.
fn at(q: &Queue, p: u64) -> u64 {
    q.store.word(p, 6)
}

fn positions_filled(q: &Queue) -> bool {
    if q.count > q.store.cells || !(0..q.count).all(|p| q.store.is_entry(at(q, p))) {
        return false;
    }
    let mut times = vec![0; q.store.cells as usize];
    (0..q.count).for_each(|p| times[at(q, p) as usize] += 1);
    q.store.entries().all(|c| times[c as usize] == 1)
}

fn table_ends(q: &Queue) -> bool {
    (q.count..q.store.cells).all(|p| at(q, p) == 0)
}

fn positions_known(q: &Queue) -> bool {
    (0..q.count).all(|p| q.store.word(at(q, p), 5) == p)
}

fn heap_ordered(q: &Queue) -> bool {
    (1..q.count).all(|p| !q.store.before(at(q, p), at(q, (p - 1) / q.arity)))
}

// The digit of a tick at a position, base 64.
pub fn digit(tick: u64, position: u32) -> u64 {
    tick / 64u64.pow(position) % 64
}

// The list in which an entry with this deadline stands at this clock.
pub fn place(clock: u64, deadline: u64) -> usize {
    match (0..6).rev().find(|&p| digit(clock, p) != digit(deadline, p)) {
        Some(p) => 64 * p as usize + digit(deadline, p) as usize,
        None => DUE,
    }
}

fn ends(v: &Wheel, i: usize) -> (u64, u64) {
    if i == DUE {
        return v.due;
    }
    (v.first[i] as u64, v.last[i] as u64)
}

// The cells from c on by the links of this field, or none if they lead to what is no entry, or to more cells than there are.
fn walk(v: &Wheel, mut c: u64, field: u64) -> Option<Vec<u64>> {
    let mut cells = Vec::new();
    while c != NO_CELL {
        if !v.store.is_entry(c) || cells.len() as u64 == v.store.cells {
            return None;
        }
        cells.push(c);
        c = v.store.word(c, field);
    }
    Some(cells)
}

fn forward(v: &Wheel, i: usize) -> Option<Vec<u64>> {
    walk(v, ends(v, i).0, 4)
}

fn lists(v: &Wheel) -> Vec<Vec<u64>> {
    (0..=DUE).map(|i| forward(v, i).unwrap()).collect()
}

fn entries_placed(v: &Wheel) -> bool {
    // By cell, the lists in which it stands, as often as it does.
    let mut stands = vec![Vec::new(); v.store.cells as usize];
    for (i, list) in lists(v).iter().enumerate() {
        list.iter().for_each(|&c| stands[c as usize].push(i));
    }
    v.store.entries().all(|c| stands[c as usize] == [place(v.clock, v.store.word(c, 2))])
}

fn linked_both_ways(v: &Wheel) -> bool {
    lists(v).into_iter().enumerate().all(|(i, list)| {
        let back = walk(v, ends(v, i).1, 5);
        back.is_some_and(|back| back.iter().rev().eq(&list))
    })
}

fn marks_right(v: &Wheel) -> bool {
    let all = lists(v);
    (0..DUE).all(|i| (v.marks[i / 64] >> (i % 64) & 1 == 1) != all[i].is_empty())
}

fn equals_rise(v: &Wheel) -> bool {
    lists(v).iter().all(|list| {
        // By deadline, the order number of the last entry that had it.
        let mut before = BTreeMap::new();
        list.iter().all(|&c| before.insert(v.store.word(c, 2), v.store.word(c, 1)).map_or(true, |number| number < v.store.word(c, 1)))
    })
}
