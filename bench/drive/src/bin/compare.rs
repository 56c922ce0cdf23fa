//! Compares the twin with the proved nub over random schedules and scripts; exits 1 at a difference.

use drive::arguments::Arguments;
use drive::coverage::Coverage;
use drive::difference::{self, Difference};
use drive::random::Random;
use drive::schedule::{self, Schedule};
use drive::scripts;
use std::process;
use twin::Answer;

const EVENTS: u64 = 10_000_000;
const SCRIPTS: u64 = 6_000;
const SEED: u64 = 1;

/// Scripts get pieces of their own, far from those of the schedules.
const FIRST_SCRIPT: u64 = 1 << 40;

fn main() {
    let mut arguments = Arguments::of_the_command();
    let self_test = arguments.flag("--self-test");
    let seed = arguments.number("--seed").unwrap_or(SEED);
    let number_of_scripts = arguments.number("--scripts").unwrap_or(SCRIPTS);
    let program = arguments.text("--program");
    let events = arguments.first().unwrap_or(EVENTS);
    arguments.end();

    println!("seed {seed}");
    if self_test {
        test_itself(seed);
        return;
    }
    if let Some(program) = program {
        compare_scripts(seed, number_of_scripts, Some(&program));
        return;
    }
    let coverage = compare_schedules(seed, events);
    compare_scripts(seed, number_of_scripts, None);
    print!("{coverage}");
    let holes = coverage.holes();
    for hole in &holes {
        println!("{hole}");
    }
    println!(
        "{} events ({} turns, {} granted), {number_of_scripts} scripts: no difference",
        coverage.events, coverage.turns, coverage.granted
    );
    if !holes.is_empty() {
        println!("but not all was met that ought to be");
        process::exit(1);
    }
}

fn a_schedule(random: &mut Random, coverage: &mut Coverage) -> Schedule {
    let kind = schedule::kind(random);
    let sizes = schedule::sizes(&kind, random);
    let length = match random.below(20) {
        0 => random.between(8_000, 40_000),
        1..=6 => random.between(2_000, 6_000),
        _ => random.between(1, 2_000),
    };
    Schedule::write(kind, sizes, length as usize, random, coverage)
}

fn compare_schedules(seed: u64, events: u64) -> Coverage {
    let mut coverage = Coverage::new();
    let mut number = 0;
    while coverage.events < events {
        let random = &mut Random::piece(seed, number);
        if random.once_in(4) {
            let kind = schedule::kind(random);
            let sizes = schedule::declined_sizes(&kind, random);
            if let Err(difference) = difference::compare_declined(&kind, &sizes) {
                println!("difference, seed {seed} schedule {number}");
                println!("kind {kind:?}\n{sizes:?}\n{difference}");
                process::exit(1);
            }
            coverage.declined_build();
        }
        let schedule = a_schedule(random, &mut coverage);
        if let Err(difference) = difference::compare(&schedule, random) {
            tell(seed, number, &schedule, &difference);
            process::exit(1);
        }
        number += 1;
    }
    println!("{number} schedules");
    coverage
}

fn tell(seed: u64, number: u64, schedule: &Schedule, difference: &Difference) {
    println!("difference, seed {seed} schedule {number}, {difference}");
    match difference::shortest(schedule) {
        Some((shortest, difference)) => {
            println!("the fewest events that differ in the last one, with the twin's answers:");
            println!("{}{difference}", difference::tell(&shortest));
        }
        None => print!("{}", difference::tell(schedule)),
    }
}

fn compare_scripts(seed: u64, number_of_scripts: u64, program: Option<&str>) {
    let mut bytes = 0;
    for number in 0..number_of_scripts {
        let random = &mut Random::piece(seed, FIRST_SCRIPT + number);
        let script = scripts::script(random);
        bytes += script.len();
        let compare = |script: &[u8]| match program {
            Some(program) => scripts::compare_program(script, program),
            None => scripts::compare_library(script, &mut random.clone()),
        };
        if let Err(difference) = compare(&script) {
            println!("difference, seed {seed} script {number}: {}", difference.what);
            let shortest = scripts::shortest(&script, |script| compare(script).is_err());
            println!("the shortest script that differs:\n{}", shortest.escape_ascii());
            if let Err(difference) = compare(&shortest) {
                println!("{}", difference.what);
            }
            process::exit(1);
        }
    }
    println!("{number_of_scripts} scripts, {bytes} bytes: no difference");
}

/// Plants faults in the twin's answers and sees that each is reported where it is.
fn test_itself(seed: u64) {
    type Fault = fn(&mut Answer, &mut Random);
    let faults: [(&str, Fault); 5] = [
        ("row", |answer, random| answer.row ^= 1 << random.below(4)),
        ("status", |answer, random| answer.status ^= 1 << random.below(2)),
        ("value", |answer, _| answer.value ^= 1),
        ("action", |answer, random| answer.action ^= 1 << random.below(4)),
        ("mask", |answer, random| answer.mask ^= 1 << random.below(64)),
    ];
    let mut missed = 0;
    let mut verdict = |name: &str, found: bool| {
        println!("planted in {name}: {}", if found { "reported" } else { "MISSED" });
        missed += u32::from(!found);
    };
    for (number, (name, fault)) in (0..).zip(faults) {
        let random = &mut Random::piece(seed, number);
        let mut schedule = a_schedule(random, &mut Coverage::new());
        let place = random.below(schedule.entries.len() as u32) as usize;
        // The same generator twice: at first nothing is planted, and nothing may be reported.
        let clean = difference::compare(&schedule, &mut Random::new(1)).is_ok();
        fault(&mut schedule.answers[place], random);
        let report = difference::compare(&schedule, &mut Random::new(1));
        let found = matches!(report, Err(Difference::Answer { place: at, .. }) if at == place);
        verdict(name, clean && found);
    }

    let kind = schedule::kind(&mut Random::new(seed));
    let granted = schedule::sizes(&kind, &mut Random::new(seed));
    verdict("a build", difference::compare_declined(&kind, &granted).is_err());

    let random = &mut Random::piece(seed, FIRST_SCRIPT);
    let script = b"N 2 1 1 0 0\nS 0 1 0 0\nT 0\nT 0\nX\n";
    let mut written = Vec::new();
    twin::run(script, &mut written);
    let clean = scripts::compare_with(script, &written).is_ok()
        && scripts::compare_library(script, &mut Random::new(1)).is_ok();
    let place = random.below(written.len() as u32) as usize;
    written[place] ^= 1;
    verdict("a byte of a script", clean && scripts::compare_with(script, &written).is_err());
    written[place] ^= 1;
    written.pop();
    verdict("the length of a script", scripts::compare_with(script, &written).is_err());

    let holes = Coverage::new().holes();
    verdict("coverage", holes.len() > 87 + 14 + 4 + 8);
    if missed > 0 {
        process::exit(1);
    }
    println!("self-test passed");
}
