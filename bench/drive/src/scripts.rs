//! Random scripts: valid ones, damaged ones, nonsense and very long ones.

mod compare;

pub use compare::{ScriptDifference, compare_library, compare_program, compare_with, shortest};

use crate::coverage::Coverage;
use crate::random::Random;
use crate::schedule::{self, Kind, Schedule};

const LONGEST: usize = 65_536;

/// Numbers as they may stand in a line, right and wrong.
const NUMBERS: &[&[u8]] = &[
    b"0",
    b"1",
    b"2",
    b"3",
    b"5",
    b"9",
    b"11",
    b"12",
    b"16",
    b"17",
    b"31",
    b"32",
    b"33",
    b"63",
    b"64",
    b"65",
    b"00",
    b"007",
    b"0000000000",
    b"0000000001",
    b"0000000009",
    b"00000000001",
    b"4294967231",
    b"4294967232",
    b"4294967295",
    b"4294967296",
    b"4294967297",
    b"9999999999",
    b"1234567890",
    b"12345678901",
    b"04294967295",
    b"18446744073709551615",
    b"18446744073709551616",
    b"18446744073709551617",
    b"99999999999999999999999999999999999999999",
    b"-1",
    b"+1",
    b"",
    b" ",
    b"x",
    b"1x",
    b"1.0",
    b"0x1",
    b"\t1",
    b"1,",
    b"\xB2",
    b"1e3",
];

/// Bytes that scripts are damaged with.
const BYTES: &[u8] = b"  \n\n0123456789NKSTX#tn-+.,\r\t\0\xFF\x80/:";

pub fn script(random: &mut Random) -> Vec<u8> {
    match random.below(16) {
        0..=3 => valid(random),
        4..=7 => {
            let mut script = valid(random);
            damage(&mut script, random);
            script
        }
        8..=10 => lines(random),
        11 => long(random),
        12 => {
            let mut script = long(random);
            damage(&mut script, random);
            script
        }
        13 => (0..random.below(400)).map(|_| random.pick(BYTES)).collect(),
        14 => (0..random.below(400)).map(|_| random.bits() as u8).collect(),
        _ => extreme(random),
    }
}

/// A schedule as a script, with a few notes.
fn valid(random: &mut Random) -> Vec<u8> {
    let length = random.pick(&[3, 30, 300, 2000]);
    let mut script = a_schedule(length, random).script();
    if random.once_in(4) {
        script.splice(0..0, b"# a note\n#\n".iter().copied());
    }
    if random.once_in(4) {
        script.pop();
    }
    script
}

fn a_schedule(length: u32, random: &mut Random) -> Schedule {
    let kind = match random.below(2) {
        0 => Kind::FirstCome,
        // The ranks that scripts give.
        _ => Kind::Ranked((0..32).collect()),
    };
    let sizes = schedule::sizes(&kind, random);
    let length = random.between(0, length) as usize;
    Schedule::write(kind, sizes, length, random, &mut Coverage::new())
}

/// Changes some bytes: other ones, more, fewer, or a piece twice.
fn damage(script: &mut Vec<u8>, random: &mut Random) {
    for _ in 0..random.between(1, 20) {
        if script.is_empty() {
            return;
        }
        let place = random.below(script.len() as u32) as usize;
        match random.below(6) {
            0 | 1 => script[place] = random.pick(BYTES),
            2 => script.insert(place, random.pick(BYTES)),
            3 => {
                script.remove(place);
            }
            4 => {
                let end = script.len().min(place + random.below(30) as usize);
                let piece = script[place..end].to_vec();
                script.splice(place..place, piece);
            }
            _ => {
                let number = random.pick(NUMBERS);
                script.splice(place..place, number.iter().copied());
            }
        }
    }
}

/// Lines made of a letter and numbers, right and wrong.
fn lines(random: &mut Random) -> Vec<u8> {
    let mut script = Vec::new();
    if random.below(4) > 0 {
        script.extend_from_slice(b"N 4 2 2 2 4294967230\n");
    }
    for _ in 0..random.below(60) {
        let letter = random.pick(b"NKSSSSTTTT#X");
        script.push(letter);
        let right = match letter {
            b'N' | b'K' => 5,
            b'S' => 4,
            b'T' => 1,
            _ => random.below(4),
        };
        let numbers = if random.once_in(6) { random.below(7) } else { right };
        for _ in 0..numbers {
            script.extend_from_slice(if random.once_in(12) {
                random.pick(&[b"" as &[u8], b"  ", b"\t", b","])
            } else {
                b" "
            });
            // Most numbers are small, or hardly a line would be right.
            let place = if random.once_in(4) { NUMBERS.len() } else { 6 };
            script.extend_from_slice(random.pick(&NUMBERS[..place]));
        }
        if random.once_in(12) {
            script.extend_from_slice(random.pick(NUMBERS));
        }
        if random.below(24) > 0 {
            script.push(b'\n');
        }
    }
    script
}

/// A script of just under, exactly or just over the longest length.
fn long(random: &mut Random) -> Vec<u8> {
    let length = match random.below(6) {
        0 => LONGEST - 1,
        1 | 2 => LONGEST,
        3 => LONGEST + 1,
        4 => LONGEST + 1 + random.below(LONGEST as u32) as usize,
        _ => LONGEST - random.below(LONGEST as u32) as usize,
    };
    let mut script = a_schedule(14_000, random).script();
    script.resize(length, b'\n');
    match random.below(3) {
        0 => script[length - 1] = b'#',
        1 => {
            // Notes in place of the empty lines.
            let from =
                script.windows(2).position(|pair| pair == b"\n\n").map_or(length, |at| at + 1);
            script[from..].fill(b'#');
        }
        _ => {}
    }
    script
}

/// One thing, very often.
fn extreme(random: &mut Random) -> Vec<u8> {
    let length = random.pick(&[0, 1, 2, 1000, LONGEST - 1, LONGEST, LONGEST + 1]);
    let piece: &[u8] =
        random.pick(&[b"\n" as &[u8], b"#", b"0", b" ", b"#\n", b"T 0\n", b"X\r\n", b"T"]);
    let head: &[u8] = random.pick(&[
        b"" as &[u8],
        b"T ",
        b"N 1 0 0 0 0\nT ",
        b"N 1 0 0 0 0\nS 0 1 0 ",
        b"K 1 1 1 1 1\n",
    ]);
    head.iter().chain(piece.iter().cycle()).copied().take(length).collect()
}
