//! Broken lines: each spoils a line that would otherwise be accepted, so that a lax reader shows itself.

use crate::dice::Dice;
use crate::script::Engine;

/// Lengths on both sides of the longest line and of the chunks in which a program may read.
const LENGTHS: [usize; 18] =
    [64, 65, 127, 128, 129, 130, 136, 255, 256, 257, 511, 512, 513, 1023, 1024, 1025, 2048, 2049];
const LONG_LENGTHS: [usize; 9] = [4095, 4096, 4097, 5000, 8192, 8193, 65_535, 65_536, 70_000];

/// A broken line made from a good one, with the word for its kind.
pub fn line(dice: &mut Dice, engine: Engine, good: &str) -> (&'static str, Vec<u8>) {
    if dice.once_in(5) {
        return long(dice, good);
    }
    let bytes = good.as_bytes();
    let at = dice.below(bytes.len() as u64) as usize;
    let (kind, text) = match dice.below(27) {
        0 => ("empty", String::new()),
        1 => ("two spaces", twice_at_space(good)),
        2 => ("leading space", format!(" {good}")),
        3 => ("trailing space", format!("{good} ")),
        4 => ("tab", tab(good)),
        5 => ("carriage return", format!("{good}\r")),
        6 => ("NUL at the end", format!("{good}\0")),
        7 | 8 => {
            let byte = dice.pick(&[
                0, 0x0b, 0x0c, 0x0d, 0x1a, 0x2f, 0x3a, 0x7f, 0x80, 0xa0, 0xb2, 0xff, b'a', b'_',
                b'.',
            ]);
            return ("strange byte within", [&bytes[..at], &[byte], &bytes[at..]].concat());
        }
        9 => {
            let any: Vec<u8> = (0..dice.between(1, 20)).map(|_| dice.any() as u8).collect();
            return ("any bytes", any.into_iter().filter(|b| *b != b'\n').collect());
        }
        10 => ("lower case", good.to_lowercase()),
        11 => ("a number is missing", without_last(good)),
        12 => ("a number too many", format!("{good} {}", dice.below(10))),
        13 => ("21 digits", with_last(dice, good, |value| format!("{value:0>21}"))),
        14 => ("20 digits with zeros", with_last(dice, good, |value| format!("{value:0>20}"))),
        15 => ("2^64", with_last(dice, good, |_| "18446744073709551616".to_string())),
        16 => ("20 nines", with_last(dice, good, |_| "99999999999999999999".to_string())),
        17 => ("2^64 - 1", with_last(dice, good, |_| "18446744073709551615".to_string())),
        18 => ("plus sign", with_last(dice, good, |value| format!("+{value}"))),
        19 => ("minus sign", with_last(dice, good, |_| "-1".to_string())),
        20 => ("set-up again", format!("{} 4 4", engine.name())),
        21 => ("the other engine's line", other(dice, engine)),
        22 => (
            "letter only",
            dice.pick(&["A", "C", "M", "G", "P", "K", "R", "wheel", "queue", "X", "5", " "])
                .to_string(),
        ),
        23 => ("no space after the letter", good.replacen(' ', "", 1)),
        24 => ("letter twice", format!("{}{good}", &good[..1])),
        25 => ("room or number out of range", out_of_range(dice, good)),
        _ => ("an unlike number", with_last(dice, good, |value| format!("0x{value}"))),
    };
    (kind, text.into_bytes())
}

/// A first line that is bad or refused, and sometimes one that only looks so.
pub fn first_line(dice: &mut Dice, engine: Engine, good: &str) -> (&'static str, Vec<u8>) {
    let (kind, text) = match (dice.below(10), engine) {
        (0, _) => ("N 0", format!("{} 0 2", engine.name())),
        (1, _) => ("N 513", format!("{} 513 2", engine.name())),
        (2, _) => ("N huge", format!("{} 18446744073709551615 2", engine.name())),
        (3 | 4, Engine::Wheel) => (
            "start above the last tick",
            format!("wheel 4 {}", dice.pick(&[68_719_476_736, u64::MAX])),
        ),
        (3 | 4, Engine::Queue) => {
            ("arity", format!("queue 4 {}", dice.pick(&[0, 1, 9, 10, u64::MAX])))
        }
        (5, Engine::Wheel) => ("N 0 and start", "wheel 0 68719476736".to_string()),
        (5, Engine::Queue) => ("N 0 and arity", "queue 0 9".to_string()),
        (6, Engine::Wheel) => ("the other engine's first line", "queue 4 2".to_string()),
        (6, Engine::Queue) => ("the other engine's first line", "wheel 4 2".to_string()),
        _ => return line(dice, engine, good),
    };
    (kind, text.into_bytes())
}

/// A line with a long filler before or after a good one; read in pieces, a piece would be accepted.
fn long(dice: &mut Dice, good: &str) -> (&'static str, Vec<u8>) {
    let length = if dice.once_in(12) { dice.pick(&LONG_LENGTHS) } else { dice.pick(&LENGTHS) };
    let byte = dice.pick(b"0 Ax\0");
    let filler = vec![byte; length.saturating_sub(good.len())];
    let kind = match length {
        0..=128 => "filled up to 128 bytes",
        129..=4000 => "longer than 128 bytes",
        _ => "longer than 4000 bytes",
    };
    match dice.below(4) {
        0 => (kind, [good.as_bytes(), &filler].concat()),
        1 => (kind, [good.as_bytes(), &vec![byte; length]].concat()),
        // Here the good line begins right after `length` bytes, where a next piece would begin.
        2 => (kind, [&vec![byte; length][..], good.as_bytes()].concat()),
        _ => (kind, [&filler, good.as_bytes()].concat()),
    }
}

fn twice_at_space(good: &str) -> String {
    if good.contains(' ') {
        good.replacen(' ', "  ", 1)
    } else {
        format!("{good}  ")
    }
}

fn tab(good: &str) -> String {
    if good.contains(' ') {
        good.replacen(' ', "\t", 1)
    } else {
        format!("{good}\t")
    }
}

fn without_last(good: &str) -> String {
    good.rsplit_once(' ').map_or(String::new(), |(start, _)| start.to_string())
}

/// Changes one of the numbers of a good line; a line without numbers gets one.
fn with_last(dice: &mut Dice, good: &str, change: impl Fn(&str) -> String) -> String {
    let mut words: Vec<String> = good.split(' ').map(String::from).collect();
    if words.len() == 1 {
        return format!("{good} {}", change("5"));
    }
    let index = dice.between(1, words.len() as u64 - 1) as usize;
    words[index] = change(&words[index]);
    words.join(" ")
}

fn other(dice: &mut Dice, engine: Engine) -> String {
    let lines = match engine {
        Engine::Wheel => ["P 5 5", "F", "T", "K 0 1 5", "R 0 1", "queue 4 2"],
        Engine::Queue => ["A 5 5", "C 0 1", "M 0 1 5", "G 5 5", "G 0 0", "wheel 4 2"],
    };
    dice.pick(&lines).to_string()
}

fn out_of_range(dice: &mut Dice, good: &str) -> String {
    let room = dice.pick(&[65, 66, 128, 256, 320, 1 << 32, 1 << 63, u64::MAX]);
    match good.rsplit_once(' ') {
        Some((start, _)) if good.starts_with('G') => format!("{start} {room}"),
        _ => format!("G 0 {room}"),
    }
}
