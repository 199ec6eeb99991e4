// Honest memory must not leave the audit's tables: what calls leave, however long they went on, has to be decided in one pass, without a
// sort. Both engines are driven by real calls through long histories (histories.rs), and a sample of the states on the way is asked at two
// doors: whether the tables took every ticket and order number, and, of a wheel, whether one look along the lists saw equal deadlines rise.
// At which slot the look for a number begins is known to the code under test alone. Built and run by tests/honest-memory.

// Of the modules of the broken memory's test only the doors and what they need are used.
#![allow(dead_code)]

#[path = "../broken/asks.rs"]
mod asks;
#[path = "../broken/doors.rs"]
mod doors;
mod driven;
mod histories;
mod history;
#[path = "../broken/lent.rs"]
mod lent;
#[path = "../broken/made.rs"]
mod made;
#[path = "../broken/model.rs"]
mod model;
#[path = "../broken/model_queue.rs"]
mod model_queue;
#[path = "../broken/model_wheel.rs"]
mod model_wheel;
#[path = "../broken/queue_door.rs"]
mod queue_door;
#[path = "../broken/rules.rs"]
mod rules;
mod tally;
#[path = "../broken/wheel_door.rs"]
mod wheel_door;

use driven::Driven;
use queue_door::Queue;
use tally::Tally;
use wheel_door::Wheel;

// Small tables serve up to 512 cells, large ones more.
const CELLS: [usize; 4] = [64, 512, 513, 4096];

fn all<E: Driven>(tally: &mut Tally) {
    histories::jumps_are_calls::<E>(tally);
    for cells in CELLS {
        let before = (tally.states, tally.fell_back);
        histories::all::<E>(tally, cells);
        let (states, fell_back) = (tally.states - before.0, tally.fell_back - before.1);
        println!("{states:8}  states of a {} of {cells} cells, {fell_back} fell back", E::NAME);
    }
}

fn main() {
    lent::watch();
    let mut tally = Tally::default();
    all::<Wheel>(&mut tally);
    all::<Queue>(&mut tally);
    let Tally { states, scattered, fell_back, looked, in_vain, calls, largest, .. } = tally;
    println!("{scattered:8}  states whose numbers had to be scattered");
    println!("{looked:8}  looks along the lists of a wheel, {in_vain} in vain");
    println!("{calls:8}  calls, the largest counter {largest}");
    println!("honest memory: {states} states asked, {fell_back} fell back to a sort");
    if fell_back + in_vain > 0 || tally.broken > 0 {
        std::process::exit(1);
    }
}
