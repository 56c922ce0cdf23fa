//! Points of docs/RULES.md that no example script shows.

use twin::{Answer, Call, Decline, Entry, FirstCome, Lines, Nub, Ranked, Sizes, Stage};

const SIZES: Sizes = Sizes { threads: 8, mutexes: 1, conditions: 1, semaphores: 1, start: 0 };

fn run_to<L: Lines>(nub: &mut Nub<L>, thread: u32, stage: Stage) {
    for _ in 0..20 {
        if nub.stage(thread) == stage {
            return;
        }
        nub.turn(thread).unwrap();
    }
    panic!("thread {thread} does not come to {stage:?}");
}

/// Thread 0 has the semaphore; the others park for it, in this order. Then each V takes one.
fn order_of_takes<L: Lines>(lines: L, arrivals: &[u32]) -> Vec<u32> {
    let mut nub = Nub::build(lines, &SIZES).unwrap();
    nub.submit(0, Call::P as u32, 0, 0).unwrap();
    run_to(&mut nub, 0, Stage::Idle);
    for &thread in arrivals {
        nub.submit(thread, Call::P as u32, 0, 0).unwrap();
        run_to(&mut nub, thread, Stage::Parked);
    }
    let mut taken = Vec::new();
    for _ in arrivals {
        nub.submit(0, Call::V as u32, 0, 0).unwrap();
        run_to(&mut nub, 0, Stage::Idle);
        let woken = arrivals.iter().find(|&&thread| nub.stage(thread) == Stage::Try);
        taken.push(*woken.unwrap());
        run_to(&mut nub, *woken.unwrap(), Stage::Idle);
    }
    taken
}

#[test]
fn first_come_takes_the_earliest() {
    assert_eq!(order_of_takes(FirstCome::new(), &[5, 1, 7, 2]), [5, 1, 7, 2]);
}

#[test]
fn ranked_takes_the_highest_and_among_equals_the_lowest_thread() {
    let mut ranks = [0; 32];
    ranks[2] = 9;
    ranks[7] = 255;
    ranks[5] = 9;
    assert_eq!(order_of_takes(Ranked::new(&ranks), &[5, 1, 3, 7, 2]), [7, 2, 5, 1, 3]);
}

#[test]
fn a_count_that_signals_under_way_still_raise_does_not_wrap() {
    let sizes = Sizes { threads: 64, start: 4_294_967_231, ..SIZES };
    let mut nub = Nub::build(FirstCome::new(), &sizes).unwrap();
    for thread in 0..64 {
        nub.submit(thread, Call::Signal as u32, 0, 0).unwrap();
    }
    for thread in 0..64 {
        run_to(&mut nub, thread, Stage::Idle);
    }
    assert_eq!(nub.count(0), u32::MAX);
    assert_eq!(nub.submit(0, Call::Broadcast as u32, 0, 0), Err(Decline::HighCount));
}

#[test]
fn a_list_is_played_as_far_as_there_are_places() {
    let entry = |turn, code| Entry { turn, thread: 3, code, first: 0, second: 0 };
    let entries = [entry(0, 6), entry(7, 0), entry(0, 2), entry(0, 12)];
    let granted = Answer::default();
    let finished = Answer { status: 3, action: 9, ..granted };
    let declined = Answer { row: 5, ..granted };
    let mut answers = [granted; 3];
    assert_eq!(twin::play_first_come(&SIZES, &entries, &mut answers), Ok(()));
    assert_eq!(answers, [granted, finished, declined]);

    let sizes = Sizes { threads: 33, ..SIZES };
    assert_eq!(twin::play_ranked(&sizes, &[], &entries, &mut answers), Err(Decline::Build));
    assert_eq!(answers, [granted, finished, declined]);
}
