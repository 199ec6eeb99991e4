//! The second program: both engines of document 01 as plain lists, written from that document alone,
//! with random scripts that are run on the built programs and compared byte by byte.

mod broken;
mod chosen;
mod compare;
mod dice;
mod lines;
mod make_queue;
mod make_wheel;
mod plain;
mod queue;
mod random;
mod runs;
mod script;
mod shrink;
mod wheel;

use compare::{difference, shown, Programs};
use random::Counts;
use script::Engine;
use std::io::{Read, Write};
use std::path::PathBuf;
use std::process::exit;
use std::time::{Instant, SystemTime, UNIX_EPOCH};

const USAGE: &str = "usage:
  second answer wheel|queue                      answers the script on standard input
  second random --wheel PATH --queue PATH --seed S --scripts K [--lines L] [--counts]
                                                 compares K random scripts, and more until L lines
    with --only I only script number I, with --engine wheel|queue only the scripts of that engine
  second show --seed S --only I                  prints random script number I
  second endless --wheel PATH --queue PATH       compares random scripts of a fresh seed for ever
  second runs --wheel PATH --queue PATH DIR      checks the stored runs of a folder";

fn usage() -> ! {
    eprintln!("{USAGE}");
    exit(2)
}

fn engine_named(name: &str) -> Engine {
    match name {
        "wheel" => Engine::Wheel,
        "queue" => Engine::Queue,
        _ => usage(),
    }
}

/// The words after the command.
#[derive(Default)]
struct Options {
    wheel: Option<PathBuf>,
    queue: Option<PathBuf>,
    seed: Option<u64>,
    scripts: Option<u64>,
    lines: Option<u64>,
    only: Option<u64>,
    engine: Option<Engine>,
    counts: bool,
    rest: Vec<String>,
}

fn options(mut words: impl Iterator<Item = String>) -> Options {
    let mut options = Options::default();
    while let Some(word) = words.next() {
        let mut value = || words.next().unwrap_or_else(|| usage());
        let number = |text: String| Some(text.parse().unwrap_or_else(|_| usage()));
        match word.as_str() {
            "--wheel" => options.wheel = Some(value().into()),
            "--queue" => options.queue = Some(value().into()),
            "--seed" => options.seed = number(value()),
            "--scripts" => options.scripts = number(value()),
            "--lines" => options.lines = number(value()),
            "--only" => options.only = number(value()),
            "--engine" => options.engine = Some(engine_named(&value())),
            "--counts" => options.counts = true,
            _ if word.starts_with('-') => usage(),
            _ => options.rest.push(word),
        }
    }
    options
}

impl Options {
    fn programs(&self) -> Programs {
        match (&self.wheel, &self.queue) {
            (Some(wheel), Some(queue)) => Programs { wheel: wheel.clone(), queue: queue.clone() },
            _ => usage(),
        }
    }
}

/// Compares one script and gives its number of lines; a difference is shrunk, printed, and ends the program.
fn compare_one(
    programs: &Programs,
    seed: u64,
    number: u64,
    before: u64,
    counts: &mut Counts,
) -> u64 {
    let script = random::script(seed, number, counts);
    let Some((_, other)) = difference(programs, &script) else { return script.lines.len() as u64 };
    let short = shrink::shrink(programs, &script, &other);
    let (own, other) = difference(programs, &short).expect("a difference that does not come again");
    let (many, few) = (script.lines.len(), short.lines.len());
    let engine = script.engine.name();
    println!("difference: seed {seed} script {number} ({engine}), after {before} equal scripts, shrunk from {many} to {few} lines");
    print!("script:\n{}", shown(&short.bytes()));
    print!("the second program prints:\n{}", shown(&own));
    print!("{} prints:\n{}", programs.of(script.engine).display(), shown(&other));
    exit(1)
}

fn compare_random(options: &Options) {
    let programs = options.programs();
    let (Some(seed), mut counts) = (options.seed, Counts::new()) else { usage() };
    if let Some(number) = options.only {
        let lines = compare_one(&programs, seed, number, 0, &mut counts);
        println!("random scripts: 1 scripts, {lines} lines, all answers equal");
        return;
    }
    let Some(least_scripts) = options.scripts else { usage() };
    let least_lines = options.lines.unwrap_or(0);
    let (mut scripts, mut lines) = (0, 0);
    for number in 0.. {
        if scripts >= least_scripts && lines >= least_lines {
            break;
        }
        if options.engine.map_or(true, |engine| engine == random::engine_of(number)) {
            lines += compare_one(&programs, seed, number, scripts, &mut counts);
            scripts += 1;
        }
    }
    if options.counts {
        for (kind, count) in &counts {
            println!("{count:8} {kind}");
        }
    }
    println!("random scripts: {scripts} scripts, {lines} lines, all answers equal");
}

fn compare_endless(options: &Options) {
    let programs = options.programs();
    let since_1970 =
        SystemTime::now().duration_since(UNIX_EPOCH).map_or(0, |time| time.as_nanos() as u64);
    let seed = options.seed.unwrap_or(since_1970);
    println!("seed {seed}");
    let start = Instant::now();
    let (mut lines, mut shown_at) = (0, 0);
    for scripts in 0.. {
        let seconds = start.elapsed().as_secs();
        if seconds > shown_at {
            shown_at = seconds;
            print!("\r{scripts} scripts, {lines} lines, {seconds} seconds, all answers equal ");
            let _ = std::io::stdout().flush();
        }
        lines += compare_one(&programs, seed, scripts, scripts, &mut Counts::new());
    }
}

fn answer(options: &Options) {
    let engine = engine_named(options.rest.first().map_or("", String::as_str));
    let mut input = Vec::new();
    std::io::stdin().read_to_end(&mut input).expect("standard input cannot be read");
    let output = script::answers(engine, &input);
    std::io::stdout().write_all(&output).expect("standard output cannot be written");
}

fn main() {
    let mut words = std::env::args().skip(1);
    let command = words.next().unwrap_or_else(|| usage());
    let options = options(words);
    match command.as_str() {
        "answer" => answer(&options),
        "random" => compare_random(&options),
        "endless" => compare_endless(&options),
        "runs" => match options.rest.as_slice() {
            [folder] if runs::check(&options.programs(), folder.as_ref()) => {}
            [_] => exit(1),
            _ => usage(),
        },
        "show" => match (options.seed, options.only) {
            (Some(seed), Some(number)) => {
                let script = random::script(seed, number, &mut Counts::new());
                std::io::stdout()
                    .write_all(&script.bytes())
                    .expect("standard output cannot be written");
            }
            _ => usage(),
        },
        _ => usage(),
    }
}
