//! Makes a script shorter while the outputs still differ.

use crate::compare::{difference, Programs};
use crate::lines::number;
use crate::random::Script;
use crate::script::{answers, Run};
use std::collections::HashMap;

/// The built program is run at most this often for one script.
const MOST_RUNS: u32 = 1500;

/// A line with its number in the first script and, if it carries a handle, the line that answered it.
#[derive(Clone)]
struct Linked {
    bytes: Vec<u8>,
    number: usize,
    handle_of: Option<usize>,
}

/// The handle that an answer hands out.
fn handle_in(answer: &str) -> Option<(u64, u64)> {
    let words: Vec<&str> = answer.split_whitespace().collect();
    match words[..] {
        ["armed", cell, ticket] | ["put", cell, ticket, ..] => {
            Some((cell.parse().ok()?, ticket.parse().ok()?))
        }
        _ => None,
    }
}

fn words_of(line: &[u8]) -> Vec<Vec<u8>> {
    line.split(|byte| *byte == b' ').map(<[u8]>::to_vec).collect()
}

/// The handle that a line carries, read here by its words, so that a line can be written anew by them.
fn handle_of(line: &[u8]) -> Option<(u64, u64)> {
    let words: Vec<&[u8]> = line.split(|byte| *byte == b' ').collect();
    match words[..] {
        [b"C" | b"M" | b"K" | b"R", cell, ticket, ..] => Some((number(cell)?, number(ticket)?)),
        _ => None,
    }
}

struct Shrinker<'a> {
    programs: &'a Programs,
    script: Script,
    lines: Vec<Linked>,
    runs: u32,
}

impl Shrinker<'_> {
    /// The script of these lines; handles follow the lines that answered them, since tickets change
    /// when lines before them are gone.
    fn script_of(&self, lines: &[Linked]) -> Script {
        let mut run = Run::Start(self.script.engine);
        let mut handles: HashMap<usize, (u64, u64)> = HashMap::new();
        let mut written = Vec::new();
        for line in lines {
            let mut bytes = line.bytes.clone();
            if let Some((cell, ticket)) = line.handle_of.and_then(|source| handles.get(&source)) {
                let mut words = words_of(&bytes);
                words[1] = cell.to_string().into_bytes();
                words[2] = ticket.to_string().into_bytes();
                bytes = words.join(&b' ');
            }
            if let Some(handle) = handle_in(&run.answer(&bytes)) {
                handles.insert(line.number, handle);
            }
            written.push(bytes);
        }
        Script { lines: written, ..self.script.clone() }
    }

    /// Keeps the lines if the outputs still differ with them.
    fn try_lines(&mut self, lines: Vec<Linked>) -> bool {
        if self.runs >= MOST_RUNS {
            return false;
        }
        self.runs += 1;
        let script = self.script_of(&lines);
        let differs = difference(self.programs, &script).is_some();
        if differs {
            self.lines = lines;
        }
        differs
    }

    /// Deletes chunks of lines, from half the script down to single lines, until nothing goes.
    fn delete_chunks(&mut self) {
        let mut chunk = self.lines.len().div_ceil(2);
        while chunk > 0 {
            let mut start = 0;
            let mut deleted = false;
            while start < self.lines.len() {
                let end = (start + chunk).min(self.lines.len());
                let mut lines = self.lines.clone();
                lines.drain(start..end);
                if self.try_lines(lines) {
                    deleted = true;
                } else {
                    start = end;
                }
            }
            if !(chunk == 1 && deleted) {
                chunk /= 2;
            }
        }
    }

    /// Tries other bytes for one line.
    fn try_line(&mut self, index: usize, bytes: Vec<u8>) -> bool {
        let mut lines = self.lines.clone();
        lines[index].bytes = bytes;
        self.try_lines(lines)
    }

    /// Takes pieces out of a long line; a line with a linked handle is never long and keeps its words.
    fn shorten(&mut self, index: usize) {
        if self.lines[index].handle_of.is_some() {
            return;
        }
        let mut piece = self.lines[index].bytes.len() / 2;
        while piece >= 8 {
            let bytes = &self.lines[index].bytes;
            let start = bytes.len().saturating_sub(piece) / 2;
            let end = (start + piece).min(bytes.len());
            let shorter = [&bytes[..start], &bytes[end..]].concat();
            if !self.try_line(index, shorter) || self.lines[index].bytes.len() < piece {
                piece /= 2;
            }
        }
    }

    /// Tries smaller numbers at each place of a line; handles stay as they are linked.
    fn lower_numbers(&mut self, index: usize) {
        let skip = if self.lines[index].handle_of.is_some() { 3 } else { 1 };
        for place in skip..words_of(&self.lines[index].bytes).len() {
            // From zero up, so that the smallest that still shows the difference stays.
            for divisor in [u64::MAX, 1 << 32, 1 << 16, 1 << 8, 16, 4, 2, 1] {
                let mut words = words_of(&self.lines[index].bytes);
                let Some(value) = words.get(place).and_then(|word| number(word)) else { break };
                let lower = (value / divisor).to_string().into_bytes();
                if lower == words[place] {
                    continue;
                }
                words[place] = lower;
                if self.try_line(index, words.join(&b' ')) {
                    break;
                }
            }
        }
    }
}

/// The line whose answer is the first to differ; what follows it is not needed.
fn lines_until_difference(script: &Script, other: &[u8]) -> usize {
    let own_upto = |count: usize| {
        let part =
            Script { lines: script.lines[..count].to_vec(), last_feed: true, ..script.clone() };
        answers(script.engine, &part.bytes())
    };
    let (mut low, mut high) = (0, script.lines.len());
    while low < high {
        let middle = (low + high) / 2;
        if other.starts_with(&own_upto(middle)) {
            low = middle + 1
        } else {
            high = middle
        }
    }
    low.min(script.lines.len())
}

/// A shorter script whose outputs still differ.
pub fn shrink(programs: &Programs, script: &Script, other: &[u8]) -> Script {
    let mut run = Run::Start(script.engine);
    let mut sources: HashMap<(u64, u64), usize> = HashMap::new();
    let mut lines = Vec::new();
    for (number, bytes) in script.lines.iter().enumerate() {
        let handle_of = handle_of(bytes).and_then(|handle| sources.get(&handle).copied());
        if let Some(handle) = handle_in(&run.answer(bytes)) {
            sources.insert(handle, number);
        }
        lines.push(Linked { bytes: bytes.clone(), number, handle_of });
    }
    let mut shrinker = Shrinker { programs, script: script.clone(), lines: lines.clone(), runs: 0 };
    let needed = lines_until_difference(script, other);
    shrinker.try_lines(lines[..needed].to_vec());
    shrinker.delete_chunks();
    shrinker.script.last_feed = true;
    if !shrinker.try_lines(shrinker.lines.clone()) {
        shrinker.script.last_feed = script.last_feed;
    }
    for index in 0..shrinker.lines.len() {
        shrinker.shorten(index);
        shrinker.lower_numbers(index);
    }
    shrinker.delete_chunks();
    let shrunk = shrinker.script_of(&shrinker.lines);
    // Linked handles are written anew, which could in principle hide the difference.
    if difference(programs, &shrunk).is_some() {
        shrunk
    } else {
        script.clone()
    }
}
