//! Measures the proved nub and the twin side by side, and prints tables.

use drive::arguments::Arguments;
use drive::coverage::Coverage;
use drive::proved;
use drive::race::{Race, race};
use drive::random::Random;
use drive::scale::{self, Work};
use drive::schedule::{self, Kind, Schedule, play_twin};
use drive::track;
use std::hint::black_box;
use twin::{Answer, Call, Entry, FirstCome, Lines, Ranked, Sizes};

const SEED: u64 = 1;
/// Events of each row of the mixed table; enough that no predictor knows them by heart.
const EVENTS: usize = 200_000;
const LONGEST_SCRIPT: usize = 65_536;

fn main() {
    let mut arguments = Arguments::of_the_command();
    let seed = arguments.number("--seed").unwrap_or(SEED);
    let rounds = arguments.number("--rounds").unwrap_or(31).max(3) as usize;
    arguments.end();
    println!("seed {seed}, {rounds} rounds; times in ns, median and least of the rounds");
    println!("An event is a submission or a turn.");

    mixed(seed, rounds);
    calls(rounds);
    builds(rounds);
    script(seed, rounds);
    let few = rounds.div_ceil(2);
    growth("first-come", &Kind::FirstCome, FirstCome::new, few);
    let equal = Kind::Ranked(vec![0; 32]);
    growth("ranked, equal ranks", &equal, || Ranked::new(&[0; 32]), few);
}

fn head(title: &str, first: &str, width: usize) {
    println!("\n{title}\n");
    println!(
        "{first:<width$} {:>10} {:>10} {:>8} {:>10} {:>10} {:>8}",
        "nub", "twin", "nub/twin", "least nub", "twin", "nub/twin"
    );
}

fn row(name: &str, width: usize, race: &Race) {
    let Race { nub, twin } = race;
    println!(
        "{name:<width$} {:>10.1} {:>10.1} {:>8.2} {:>10.1} {:>10.1} {:>8.2}",
        nub.median,
        twin.median,
        nub.median / twin.median,
        nub.least,
        twin.least,
        nub.least / twin.least
    );
}

/// A list of events to play, so often in one go.
struct List<'a> {
    sizes: Sizes,
    entries: &'a [Entry],
    plays: usize,
}

/// Plays the lists on both; the times of one unit of so many.
fn race_lists(rounds: usize, units: usize, kind: &Kind, lists: &[List]) -> Race {
    let longest = lists.iter().map(|list| list.entries.len()).max().unwrap_or(0);
    let mut to_nub = vec![Answer::default(); longest];
    let mut to_twin = to_nub.clone();
    let race = race(
        rounds,
        lists,
        |&List { sizes, entries, plays }| {
            for _ in 0..plays {
                let row = proved::play(kind, &sizes, entries, &mut to_nub[..entries.len()]);
                assert_eq!(row, 0);
            }
        },
        |&List { sizes, entries, plays }| {
            for _ in 0..plays {
                let answers = &mut to_twin[..entries.len()];
                play_twin(kind, &sizes, black_box(entries), answers).expect("granted sizes");
                black_box(answers);
            }
        },
    );
    assert_eq!(to_nub, to_twin, "the two must have done the same work");
    race.per(units)
}

fn mixed(seed: u64, rounds: usize) {
    let width = 44;
    head("Mixed schedules, per event", "kind, threads, share of turns", width);
    for ranked in [false, true] {
        let mut all = Vec::new();
        for threads in [1, 2, 4, 8, 16, 32, 64] {
            let kind = if ranked {
                Kind::Ranked((0..32).map(|n| n % 8).collect())
            } else {
                Kind::FirstCome
            };
            if threads > kind.serves() {
                continue;
            }
            let schedules = schedules(seed, &kind, threads);
            mixed_row(rounds, &kind, &threads.to_string(), &schedules);
            all.extend(schedules);
        }
        let kind = all[0].kind.clone();
        mixed_row(rounds, &kind, "all of these", &all);
    }
}

fn mixed_row(rounds: usize, kind: &Kind, threads: &str, schedules: &[Schedule]) {
    let lists: Vec<List> = schedules
        .iter()
        .map(|one| List { sizes: one.sizes, entries: &one.entries, plays: 1 })
        .collect();
    let entries = || lists.iter().flat_map(|list| list.entries.iter());
    let events = entries().count();
    let turns = entries().filter(|entry| entry.turn != 0).count();
    let name = format!("{}, {threads}, {} %", name(kind), turns * 100 / events);
    row(&name, 44, &race_lists(rounds, events, kind, &lists));
}

fn name(kind: &Kind) -> &'static str {
    match kind {
        Kind::FirstCome => "first-come",
        Kind::Ranked(_) => "ranked",
    }
}

/// Schedules as compare has them, with so many threads each; together at least the events wanted.
fn schedules(seed: u64, kind: &Kind, threads: u32) -> Vec<Schedule> {
    let mut list = Vec::new();
    let mut events = 0;
    let random = &mut Random::piece(seed, threads.into());
    while events < EVENTS {
        let sizes = schedule::sizes_for(threads, random);
        let coverage = &mut Coverage::new();
        let schedule = Schedule::write(kind.clone(), sizes, 8_000, random, coverage);
        // Short ones came to a standstill; they would measure the build.
        if schedule.entries.len() > 2_000 {
            events += schedule.entries.len();
            list.push(schedule);
        }
    }
    list
}

/// Calls that meet nobody.
fn calls(rounds: usize) {
    let width = 44;
    head("Calls that meet nobody, first-come, per cycle", "calls (turns)", width);
    let cycles: [(&str, &[Call]); 6] = [
        ("TestAlert (1)", &[Call::TestAlert]),
        ("Alert (1)", &[Call::Alert]),
        ("Signal (3)", &[Call::Signal]),
        ("Broadcast (3)", &[Call::Broadcast]),
        ("Acquire, Release (1 + 2)", &[Call::Acquire, Call::Release]),
        ("P, V (1 + 2)", &[Call::P, Call::V]),
    ];
    for (name, calls) in cycles {
        let mut track = track::Track::new(FirstCome::new());
        let times = 10_000;
        for time in 0..times {
            for &call in calls {
                track.call(time % 64, call);
            }
        }
        let sizes = track::sizes::<FirstCome>();
        let list = List { sizes, entries: &track.entries, plays: 1 };
        row(name, width, &race_lists(rounds, times as usize, &Kind::FirstCome, &[list]));
    }
}

fn builds(rounds: usize) {
    let width = 44;
    head("Build, by an empty list", "kind", width);
    for kind in [Kind::FirstCome, Kind::Ranked((0..32).map(|n| n % 8).collect())] {
        let threads = kind.serves();
        let sizes = Sizes { threads, mutexes: 16, conditions: 16, semaphores: 16, start: 0 };
        let list = List { sizes, entries: &[], plays: 1_000 };
        row(name(&kind), width, &race_lists(rounds, list.plays, &kind, &[list]));
    }
}

fn script(seed: u64, rounds: usize) {
    let width = 52;
    head("One script, all of it, in microseconds", "script", width);
    let random = &mut Random::piece(seed, 99);
    let sizes = Sizes { threads: 16, mutexes: 2, conditions: 2, semaphores: 2, start: 0 };
    // The longest of some, as a schedule may come to a standstill.
    let mut long = Vec::new();
    for _ in 0..20 {
        let coverage = &mut Coverage::new();
        let schedule = Schedule::write(Kind::FirstCome, sizes, 14_000, random, coverage);
        long = std::cmp::max_by_key(long, schedule.script(), Vec::len);
    }
    long.truncate(LONGEST_SCRIPT);
    script_row("submissions and turns", width, rounds, &long);
    let notes = b"# a note of 32 bytes, end and all\n".repeat(LONGEST_SCRIPT / 34);
    script_row("notes", width, rounds, &notes);
    let faults = b"S 0 1 x 0\n".repeat(LONGEST_SCRIPT / 10);
    script_row("faults", width, rounds, &faults);
    script_row("empty lines", width, rounds, &vec![b'\n'; LONGEST_SCRIPT]);
}

fn script_row(name: &str, width: usize, rounds: usize, input: &[u8]) {
    let mut twin = Vec::new();
    twin::run(input, &mut twin);
    let mut output = vec![0; twin.len()];
    let name = format!("{name}: {} bytes in, {} out", input.len(), twin.len());
    let race = race(
        rounds,
        &[input],
        |input| assert_eq!(proved::script(input, &mut output), Some(output.len())),
        |input| {
            twin.clear();
            twin::run(input, &mut twin);
        },
    );
    assert!(output == twin, "the two must write the same");
    row(&name, width, &race.per(1_000));
}

/// How costs grow with the members of a line.
fn growth<L: Lines>(name: &str, kind: &Kind, lines: impl Fn() -> L, rounds: usize) {
    let sizes = track::sizes::<L>();
    let mut numbers = vec![0, 1, 2, 4, 8, 16];
    // Two threads do the work, so that so many are left for the line.
    numbers.extend([30, 62].iter().filter(|&&number| number + 2 <= L::SERVES));
    let columns: String = numbers.iter().map(|number| format!("{number:>9}")).collect();

    println!("\nCycles with k members in the line, {name}, per cycle; least\n");
    println!("{:<44}{columns}", "k");
    for cycle in scale::cycles::<L>() {
        let races = races(&cycle, &numbers, &lines, |work| {
            // What comes before is little beside so many cycles, but it is taken off all the same.
            let [before, whole] = [work.before, work.entries.len()].map(|length| {
                let list = List { sizes, entries: &work.entries[..length], plays: 1 };
                race_lists(rounds, work.times, kind, &[list])
            });
            [whole.nub.least - before.nub.least, whole.twin.least - before.twin.least]
        });
        two_rows(cycle.name, &races);
    }

    println!(
        "\nSingle turns with k members in the line, {name}; least time with the turn less that without\n"
    );
    println!("{:<44}{columns}", "k");
    for turn in scale::turns::<L>() {
        let races = races(&turn, &numbers, &lines, |work| single(rounds, kind, sizes, &work));
        two_rows(turn.name, &races);
    }
}

fn races<L: Lines>(
    kind: &scale::Kind<L>,
    numbers: &[u32],
    lines: &impl Fn() -> L,
    mut times: impl FnMut(Work) -> [f64; 2],
) -> Vec<Option<[f64; 2]>> {
    let mut work = |number| (number >= kind.least).then(|| times((kind.make)(lines(), number)));
    numbers.iter().map(|&number| work(number)).collect()
}

/// The list with the turn and the list without are played alternately and often, and the least
/// times count: a single turn is short beside what disturbs a run.
fn single(rounds: usize, kind: &Kind, sizes: Sizes, work: &Work) -> [f64; 2] {
    const PLAYS: usize = 32;
    let mut least = [[f64::INFINITY; 2]; 2];
    for _ in 0..rounds * 4 {
        for (with, length) in [work.before, work.entries.len()].into_iter().enumerate() {
            let list = List { sizes, entries: &work.entries[..length], plays: PLAYS };
            let race = race_lists(3, PLAYS, kind, &[list]);
            least[with][0] = least[with][0].min(race.nub.least);
            least[with][1] = least[with][1].min(race.twin.least);
        }
    }
    [least[1][0] - least[0][0], least[1][1] - least[0][1]]
}

fn two_rows(name: &str, races: &[Option<[f64; 2]>]) {
    for (place, who) in ["nub", "twin"].into_iter().enumerate() {
        let cells = races.iter().map(|race| match race {
            Some(times) => format!("{:>9.1}", times[place]),
            None => format!("{:>9}", ""),
        });
        println!(
            "{:<38} {who:<5}{}",
            if place == 0 { name } else { "" },
            cells.collect::<String>()
        );
    }
}
