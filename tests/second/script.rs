//! A script's run: each line goes to its engine, and the answer is text with line feeds.

use crate::lines::{read, split, Line};
use crate::plain::Refusal;
use crate::queue::Queue;
use crate::wheel::Wheel;

#[derive(Clone, Copy, PartialEq, Eq, Debug)]
pub enum Engine {
    Wheel,
    Queue,
}

impl Engine {
    pub fn name(self) -> &'static str {
        match self {
            Engine::Wheel => "wheel",
            Engine::Queue => "queue",
        }
    }
}

/// Where a run stands; a first line that is bad or refused ends it.
pub enum Run {
    Start(Engine),
    Wheel(Wheel),
    Queue(Queue),
    Ended,
}

fn bad_line() -> String {
    "bad line\n".to_string()
}

fn refused(number: Refusal) -> String {
    format!("refused {number}\n")
}

fn answer_of<T>(result: Result<T, Refusal>, text: impl Fn(T) -> String) -> String {
    result.map_or_else(refused, text)
}

fn answer_wheel(wheel: &mut Wheel, line: Option<Line>) -> String {
    match line {
        Some(Line::Arm { deadline, load }) => {
            answer_of(wheel.arm(deadline, load), |e| format!("armed {} {}\n", e.cell, e.ticket))
        }
        Some(Line::Cancel { cell, ticket }) => {
            answer_of(wheel.cancel(cell, ticket), |e| format!("load {}\n", e.load))
        }
        Some(Line::Move { cell, ticket, deadline }) => {
            answer_of(wheel.move_to(cell, ticket, deadline), |_| "moved\n".to_string())
        }
        Some(Line::Advance { target, room }) => answer_of(wheel.advance(target, room), |advance| {
            let mut text = String::new();
            for e in &advance.fired {
                text += &format!("fired {} {} {} {}\n", e.cell, e.ticket, e.key, e.load);
            }
            let end = if advance.more { "more" } else { "done" };
            text + &format!("clock {} moves {} {end}\n", advance.clock, advance.moves)
        }),
        _ => bad_line(),
    }
}

fn answer_queue(queue: &mut Queue, line: Option<Line>) -> String {
    match line {
        Some(Line::Put { key, load }) => answer_of(queue.put(key, load), |(e, moves)| {
            format!("put {} {} moves {moves}\n", e.cell, e.ticket)
        }),
        Some(Line::First) => answer_of(queue.first(), |e| {
            format!("first {} {} {} {}\n", e.key, e.cell, e.ticket, e.load)
        }),
        Some(Line::Take) => answer_of(queue.take(), |(e, moves)| {
            format!("took {} {} {} {} moves {moves}\n", e.key, e.cell, e.ticket, e.load)
        }),
        Some(Line::Rekey { cell, ticket, key }) => {
            answer_of(queue.rekey(cell, ticket, key), |moves| format!("rekeyed moves {moves}\n"))
        }
        Some(Line::Remove { cell, ticket }) => {
            answer_of(queue.remove(cell, ticket), |(e, moves)| {
                format!("load {} moves {moves}\n", e.load)
            })
        }
        _ => bad_line(),
    }
}

impl Run {
    /// Answers one line, without its line feed; an ended run answers nothing.
    pub fn answer(&mut self, line: &[u8]) -> String {
        let line = read(line);
        match self {
            Run::Ended => String::new(),
            Run::Wheel(wheel) => answer_wheel(wheel, line),
            Run::Queue(queue) => answer_queue(queue, line),
            Run::Start(engine) => {
                let (run, text) = first_line(*engine, line);
                *self = run;
                text
            }
        }
    }
}

fn first_line(engine: Engine, line: Option<Line>) -> (Run, String) {
    match (engine, line) {
        (Engine::Wheel, Some(Line::SetUpWheel { cells, start })) => {
            match Wheel::set_up(cells, start) {
                Ok(wheel) => (Run::Wheel(wheel), format!("wheel {cells} clock {start}\n")),
                Err(number) => (Run::Ended, refused(number)),
            }
        }
        (Engine::Queue, Some(Line::SetUpQueue { cells, arity })) => {
            match Queue::set_up(cells, arity) {
                Ok(queue) => (Run::Queue(queue), format!("queue {cells} arity {arity}\n")),
                Err(number) => (Run::Ended, refused(number)),
            }
        }
        _ => (Run::Ended, bad_line()),
    }
}

/// The whole output of a script.
pub fn answers(engine: Engine, input: &[u8]) -> Vec<u8> {
    let mut run = Run::Start(engine);
    split(input).iter().map(|line| run.answer(line)).collect::<String>().into_bytes()
}
