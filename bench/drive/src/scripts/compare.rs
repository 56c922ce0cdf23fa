//! Scripts run by the twin and by the proved script, byte for byte.

use crate::proved;
use crate::random::Random;
use crate::shrink::shrink;
use std::io::{self, Write};
use std::process::{Command, Stdio};
use std::thread;

/// What places of an output have that were not written.
const UNTOUCHED: u8 = 0xA5;

#[derive(Debug)]
pub struct ScriptDifference {
    pub what: String,
}

/// Compares what the twin writes with the given bytes.
pub fn compare_with(input: &[u8], nub: &[u8]) -> Result<(), ScriptDifference> {
    let mut twin = Vec::new();
    twin::run(input, &mut twin);
    differ(&twin, nub)
}

fn differ(twin: &[u8], nub: &[u8]) -> Result<(), ScriptDifference> {
    if twin == nub {
        return Ok(());
    }
    let mut twin = twin.split(|&byte| byte == b'\n');
    let mut nub = nub.split(|&byte| byte == b'\n');
    for line in 1.. {
        let (from_twin, from_nub) = (twin.next(), nub.next());
        if from_twin != from_nub {
            let text = |line: Option<&[u8]>| line.map(|line| line.escape_ascii().to_string());
            let what =
                format!("line {line}\n  twin {:?}\n  nub  {:?}", text(from_twin), text(from_nub));
            return Err(ScriptDifference { what });
        }
    }
    unreachable!("different bytes differ in a line")
}

/// Runs the script by the library, with place for all that it writes, for more or for less.
pub fn compare_library(input: &[u8], random: &mut Random) -> Result<(), ScriptDifference> {
    let mut twin = Vec::new();
    twin::run(input, &mut twin);
    let place = match random.below(8) {
        0 => random.below(twin.len() as u32 + 1) as usize,
        1 => 0,
        2 => twin.len() + random.below(100) as usize,
        _ => twin.len(),
    };
    let mut nub = vec![UNTOUCHED; twin.len() + 128];
    let Some(length) = proved::script(input, &mut nub[..place]) else {
        return Err(ScriptDifference { what: "the nub had no memory".to_owned() });
    };
    let written = place.min(length);
    differ(&twin[..written.min(twin.len())], &nub[..written])?;
    if length != twin.len() {
        let what = format!("the twin writes {} bytes, the nub says {length}", twin.len());
        return Err(ScriptDifference { what });
    }
    if nub[written..].iter().any(|&byte| byte != UNTOUCHED) {
        return Err(ScriptDifference { what: "the nub wrote past its output".to_owned() });
    }
    Ok(())
}

/// Runs the script by a program that reads it and writes the answers.
pub fn compare_program(input: &[u8], program: &str) -> Result<(), ScriptDifference> {
    let nub = run_program(input, program)
        .map_err(|error| ScriptDifference { what: format!("{program}: {error}") })?;
    compare_with(input, &nub)
}

fn run_program(input: &[u8], program: &str) -> io::Result<Vec<u8>> {
    let mut child = Command::new(program).stdin(Stdio::piped()).stdout(Stdio::piped()).spawn()?;
    let mut to_child = child.stdin.take().expect("a piped input");
    // A program may end before it has read all, so that the rest finds no reader.
    let output = thread::scope(|scope| {
        scope.spawn(move || to_child.write_all(input).ok());
        child.wait_with_output()
    })?;
    Ok(output.stdout)
}

/// A script that still differs and from which no line, and then no byte, can be left out.
pub fn shortest(input: &[u8], differs: impl Fn(&[u8]) -> bool) -> Vec<u8> {
    let lines: Vec<&[u8]> = input.split_inclusive(|&byte| byte == b'\n').collect();
    let script = shrink(&lines, |lines| differs(&lines.concat())).concat();
    // A long script that no line can be taken from would cost too many runs.
    if script.len() > 4096 { script } else { shrink(&script, differs) }
}
