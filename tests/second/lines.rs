//! The line grammar of both script languages.

/// A line may have this many bytes before its line feed.
pub const LONGEST_LINE: usize = 128;
const MOST_DIGITS: usize = 20;
const MOST_CELLS: u64 = 512;
const MOST_ROOM: u64 = 64;

/// A line that keeps the grammar, with its numbers.
pub enum Line {
    SetUpWheel { cells: u64, start: u64 },
    Arm { deadline: u64, load: u64 },
    Cancel { cell: u64, ticket: u64 },
    Move { cell: u64, ticket: u64, deadline: u64 },
    Advance { target: u64, room: u64 },
    SetUpQueue { cells: u64, arity: u64 },
    Put { key: u64, load: u64 },
    First,
    Take,
    Rekey { cell: u64, ticket: u64, key: u64 },
    Remove { cell: u64, ticket: u64 },
}

/// The lines of an input, without their line feeds.
pub fn split(input: &[u8]) -> Vec<&[u8]> {
    let mut lines: Vec<&[u8]> = input.split(|byte| *byte == b'\n').collect();
    // What follows the last line feed is a line only if it has bytes.
    if lines.last().is_some_and(|line| line.is_empty()) {
        lines.pop();
    }
    lines
}

/// A number of 1 to 20 digits that is at most 2^64 - 1; leading zeros are digits like others.
pub fn number(word: &[u8]) -> Option<u64> {
    if word.is_empty() || word.len() > MOST_DIGITS {
        return None;
    }
    let mut value: u128 = 0;
    for byte in word {
        if !byte.is_ascii_digit() {
            return None;
        }
        value = 10 * value + u128::from(byte - b'0');
    }
    u64::try_from(value).ok()
}

/// Reads a line; any line outside the grammar is none.
pub fn read(line: &[u8]) -> Option<Line> {
    if line.len() > LONGEST_LINE {
        return None;
    }
    // Two spaces in a row, or one at an end, give an empty word, which is no number and no name.
    let words: Vec<&[u8]> = line.split(|byte| *byte == b' ').collect();
    let numbers: Vec<u64> = words[1..].iter().map(|word| number(word)).collect::<Option<_>>()?;
    match (words[0], numbers.as_slice()) {
        (b"wheel", &[cells, start]) if (1..=MOST_CELLS).contains(&cells) => {
            Some(Line::SetUpWheel { cells, start })
        }
        (b"A", &[deadline, load]) => Some(Line::Arm { deadline, load }),
        (b"C", &[cell, ticket]) => Some(Line::Cancel { cell, ticket }),
        (b"M", &[cell, ticket, deadline]) => Some(Line::Move { cell, ticket, deadline }),
        (b"G", &[target, room]) if room <= MOST_ROOM => Some(Line::Advance { target, room }),
        (b"queue", &[cells, arity]) if (1..=MOST_CELLS).contains(&cells) => {
            Some(Line::SetUpQueue { cells, arity })
        }
        (b"P", &[key, load]) => Some(Line::Put { key, load }),
        (b"F", &[]) => Some(Line::First),
        (b"T", &[]) => Some(Line::Take),
        (b"K", &[cell, ticket, key]) => Some(Line::Rekey { cell, ticket, key }),
        (b"R", &[cell, ticket]) => Some(Line::Remove { cell, ticket }),
        _ => None,
    }
}
