// Both engines by the same few quick calls.

use crate::doors::{call, Call, Engine, Told};
use crate::lent::Lent;
use crate::made::Dice;
use crate::queue_door::Queue;
use crate::rules::LAST_TICK;
use crate::wheel_door::Wheel;

extern "C" {
    // The ends of the slots, and the head's six numbers. 0: a list is broken, 1: order numbers do not rise along each list, 2: they do, so that equal
    // deadlines stand by rising order number.
    fn wastelquib_test_walked(
        w: *const u64, w_len: usize, first: *const u16, first_len: usize, last: *const u16, last_len: usize, numbers: *const u64, numbers_len: usize,
    ) -> u64;
}

pub trait Driven: Engine {
    const NAME: &'static str;
    // The words that are zero in a cell in use, as digits.
    const UNUSED: u64;
    // The calls that add, change and take out an entry.
    const CALLS: [&'static str; 3];
    fn start(cells: usize) -> Self;
    // A deadline or key: soon one among `span`, or one that will not come.
    fn soon(&self, span: u64, dice: &mut Dice) -> u64;
    fn never(&self, dice: &mut Dice) -> u64;
    // Hands out some of those that are soonest, and says how many; those that will not come stay.
    fn turn(&mut self, dice: &mut Dice) -> u64;
    fn counter(&mut self) -> &mut u64;
    // What a walk along a wheel's lists tells.
    fn walked(&self) -> Option<u64>;
}

pub fn made<E: Engine>(e: &mut E, call: Call, out: &mut Lent<u64>) -> Told {
    let told = e.call(call, out).expect("the slices fit");
    assert_ne!(told.kind, 0, "{call:?} is refused with {}", told.numbers[0]);
    told
}

impl Driven for Wheel {
    const NAME: &'static str = "wheel";
    const UNUSED: u64 = 192;
    const CALLS: [&'static str; 3] = ["arm", "move", "cancel"];
    fn start(cells: usize) -> Wheel {
        let mut v = Wheel::blank(8 * cells);
        made(&mut v, call("set-up", [1000, 0, 0]), &mut Lent::filled(0, 0));
        v
    }
    fn soon(&self, span: u64, dice: &mut Dice) -> u64 {
        self.numbers[0] + 1 + dice.below(span)
    }
    fn never(&self, dice: &mut Dice) -> u64 {
        LAST_TICK - dice.below(1000)
    }
    // Now and then with little room, so that some stay due.
    fn turn(&mut self, dice: &mut Dice) -> u64 {
        let room = dice.one_of(&[1, 2, 64]);
        let mut out = Lent::filled(0, 4 * room);
        made(self, call("advance", [self.numbers[0] + dice.below(40), 0, 0]).quick(), &mut out).numbers[0]
    }
    fn counter(&mut self) -> &mut u64 {
        &mut self.numbers[5]
    }
    fn walked(&self) -> Option<u64> {
        let (w, f, l, n) = (&self.words, &self.first, &self.last, &self.numbers);
        Some(unsafe { wastelquib_test_walked(w.as_ptr(), w.len(), f.as_ptr(), f.len(), l.as_ptr(), l.len(), n.as_ptr(), n.len()) })
    }
}

impl Driven for Queue {
    const NAME: &'static str = "queue";
    const UNUSED: u64 = 144;
    const CALLS: [&'static str; 3] = ["put", "rekey", "remove"];
    fn start(cells: usize) -> Queue {
        let mut q = Queue::blank(8 * cells);
        made(&mut q, call("set-up", [4, 0, 0]), &mut Lent::filled(0, 0));
        q
    }
    fn soon(&self, span: u64, dice: &mut Dice) -> u64 {
        dice.below(span)
    }
    fn never(&self, dice: &mut Dice) -> u64 {
        u64::MAX - dice.below(1000)
    }
    fn turn(&mut self, _: &mut Dice) -> u64 {
        let told = made(self, call("first", [0; 3]).quick(), &mut Lent::filled(0, 0));
        if told.numbers[0] > u64::MAX - 1000 {
            return 0;
        }
        made(self, call("take", [0; 3]).quick(), &mut Lent::filled(0, 0));
        1
    }
    fn counter(&mut self) -> &mut u64 {
        &mut self.numbers[4]
    }
    fn walked(&self) -> Option<u64> {
        None
    }
}
