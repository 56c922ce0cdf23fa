//! The script: bytes in, bytes out (docs/SCRIPT.md).

mod number;
mod output;
mod reader;

use crate::{Answer, Decline, Entry, FirstCome, Nub, Ranked, Sizes, perform};
use output::Output;
use reader::{Fault, Reader};

const LONGEST: usize = 65_536;

/// The nub of the script, once there is one.
enum Built {
    None,
    FirstCome(Nub<FirstCome>),
    Ranked(Nub<Ranked>),
}

/// Why a line was declined.
enum Refusal {
    Nub(u32),
    Script(Fault),
}

impl From<Fault> for Refusal {
    fn from(fault: Fault) -> Refusal {
        Refusal::Script(fault)
    }
}

impl From<Decline> for Refusal {
    fn from(decline: Decline) -> Refusal {
        Refusal::Nub(decline as u32)
    }
}

/// What a granted line writes.
enum Reply {
    Ok,
    Report(Answer),
    Note,
}

/// Runs the script and puts what it writes at the end of `written`.
pub fn run(input: &[u8], written: &mut Vec<u8>) {
    let mut output = Output::new(written);
    if input.len() > LONGEST {
        output.fault(0, Fault { row: 34, column: 1 });
        return;
    }
    let mut built = Built::None;
    let mut reader = Reader::new(input);
    let mut line = 0;
    while reader.has_line() {
        line += 1;
        match run_line(&mut reader, &mut built) {
            Ok(Reply::Ok) => output.ok(),
            Ok(Reply::Report(report)) => output.report(&report),
            Ok(Reply::Note) => output.note(reader.line()),
            Err(Refusal::Nub(row)) => output.decline(line, row),
            Err(Refusal::Script(fault)) => output.fault(line, fault),
        }
        reader.next_line();
    }
}

#[inline]
fn run_line(reader: &mut Reader, built: &mut Built) -> Result<Reply, Refusal> {
    match reader.letter() {
        Some(b'T') => {
            let [thread] = reader.numbers()?;
            let answer = ask(built, &Entry { turn: 1, thread, ..Entry::default() })?;
            Ok(Reply::Report(answer))
        }
        Some(b'S') => {
            let [thread, code, first, second] = reader.numbers()?;
            ask(built, &Entry { turn: 0, thread, code, first, second })?;
            Ok(Reply::Ok)
        }
        Some(letter @ (b'N' | b'K')) => {
            let [threads, mutexes, conditions, semaphores, start] = reader.numbers()?;
            if !matches!(built, Built::None) {
                return Err(WRONG_TIME.into());
            }
            let sizes = Sizes { threads, mutexes, conditions, semaphores, start };
            *built = if letter == b'N' {
                Built::FirstCome(Nub::build(FirstCome::new(), &sizes)?)
            } else {
                let ranks = std::array::from_fn(|thread| thread as u8);
                Built::Ranked(Nub::build(Ranked::new(&ranks), &sizes)?)
            };
            Ok(Reply::Ok)
        }
        Some(b'#') => Ok(Reply::Note),
        _ => Err(Fault { row: 31, column: 1 }.into()),
    }
}

/// An S or T before there is a nub, or an N or K after.
const WRONG_TIME: Fault = Fault { row: 33, column: 1 };

#[inline]
fn ask(built: &mut Built, entry: &Entry) -> Result<Answer, Refusal> {
    let answer = match built {
        Built::None => return Err(WRONG_TIME.into()),
        Built::FirstCome(nub) => perform(nub, entry),
        Built::Ranked(nub) => perform(nub, entry),
    };
    match answer.row {
        0 => Ok(answer),
        row => Err(Refusal::Nub(row)),
    }
}
