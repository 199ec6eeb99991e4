//! Runs a built program on a script and compares every byte with this program's answers.

use crate::random::Script;
use crate::script::{answers, Engine};
use std::io::{Read, Write};
use std::path::{Path, PathBuf};
use std::process::{exit, Command, Stdio};
use std::sync::mpsc;
use std::thread;
use std::time::Duration;

/// A program that takes longer than this on one script is ended and counts as different.
const LONGEST_RUN: Duration = Duration::from_secs(20);

pub struct Programs {
    pub wheel: PathBuf,
    pub queue: PathBuf,
}

impl Programs {
    pub fn of(&self, engine: Engine) -> &Path {
        match engine {
            Engine::Wheel => &self.wheel,
            Engine::Queue => &self.queue,
        }
    }
}

/// The output of a built program, with a last remark of our own if it did not end well.
pub fn output_of(program: &Path, input: &[u8]) -> Vec<u8> {
    let mut child = Command::new(program)
        .stdin(Stdio::piped())
        .stdout(Stdio::piped())
        .stderr(Stdio::null())
        .spawn()
        .unwrap_or_else(|error| {
            eprintln!("{} does not start: {error}", program.display());
            exit(2)
        });
    let mut stdin = child.stdin.take().unwrap();
    let mut stdout = child.stdout.take().unwrap();
    let input = input.to_vec();
    // Both pipes are served at once, since a program may answer long before it has read everything.
    let writer = thread::spawn(move || {
        // A program may stop reading after a bad first line, so a broken pipe is no fault.
        let _ = stdin.write_all(&input);
    });
    let (sender, receiver) = mpsc::channel();
    thread::spawn(move || {
        let mut output = Vec::new();
        let _ = stdout.read_to_end(&mut output);
        let _ = sender.send(output);
    });
    match receiver.recv_timeout(LONGEST_RUN) {
        Ok(mut output) => {
            let status = child.wait().expect("the program cannot be waited for");
            let _ = writer.join();
            if !status.success() {
                output.extend(format!("[ended with {status}]\n").bytes());
            }
            output
        }
        Err(_) => {
            let _ = child.kill();
            let _ = child.wait();
            b"[did not end in time]\n".to_vec()
        }
    }
}

/// Both outputs of a script, this program's first, if they differ.
pub fn difference(programs: &Programs, script: &Script) -> Option<(Vec<u8>, Vec<u8>)> {
    let input = script.bytes();
    let own = answers(script.engine, &input);
    let other = output_of(programs.of(script.engine), &input);
    (own != other).then_some((own, other))
}

/// Bytes as lines of text, with strange bytes written as escapes and very long lines cut.
pub fn shown(bytes: &[u8]) -> String {
    let mut text = String::new();
    for line in bytes.split_inclusive(|byte| *byte == b'\n') {
        let (line, end) = match line.strip_suffix(b"\n") {
            Some(line) => (line, "\n"),
            None => (line, " [no line feed]\n"),
        };
        if line.len() <= 200 {
            text += &format!("  {}{end}", line.escape_ascii());
        } else {
            let (start, last) = (&line[..80], &line[line.len() - 80..]);
            text += &format!(
                "  {} [..] {} [{} bytes]{end}",
                start.escape_ascii(),
                last.escape_ascii(),
                line.len()
            );
        }
    }
    if text.is_empty() {
        "  [nothing]\n".to_string()
    } else {
        text
    }
}
