//! Generated streams: always the same for a seed, and what they reach.

use crate::stream::bytes_of;
use second::judge::answer::answer;
use second::judge::case::{Call, Case};
use second::judge::generate::encodings::{has_operands, walk, LENGTH_OF_WALK};
use second::judge::generate::Stream;
use std::collections::HashSet;

#[test]
fn a_seed_always_makes_the_same_stream() {
    let stream = |seed, first, count| {
        let mut bytes = Vec::new();
        Stream::Calls
            .write(seed, first, count, &mut bytes)
            .expect("memory does not fail");
        bytes
    };
    let long = stream(7, 0, 300);
    assert_eq!(stream(7, 0, 300), long);
    assert_eq!([stream(7, 0, 100), stream(7, 100, 200)].concat(), long);
    assert_ne!(stream(8, 0, 100), stream(7, 0, 100));
}

#[test]
fn generated_cases_survive_writing_and_reading() {
    for stream in [
        Stream::Calls,
        Stream::Runs,
        Stream::QuickerRuns,
        Stream::Cards,
        Stream::CardRuns,
        Stream::QuickerCardRuns,
    ] {
        for number in 0..2_000 {
            let case = stream.case(3, number);
            let bytes = bytes_of(&case);
            assert_eq!(Case::read(&mut &bytes[..]).expect("a whole case"), case);
        }
    }
}

#[test]
fn the_walk_passes_every_opcode() {
    let passed: HashSet<Vec<u8>> = (0..LENGTH_OF_WALK).map(walk).collect();
    assert_eq!(passed.len() as u64, LENGTH_OF_WALK);
    for first in 0..=255u8 {
        assert!(passed.contains(&vec![first]));
        assert!(passed.contains(&vec![0x0F, first]));
        for operands in 0..=255u8 {
            let wanted = has_operands(first);
            assert_eq!(
                passed.contains(&vec![first, operands]),
                wanted || first == 0x0F
            );
        }
    }
}

#[test]
fn generated_streams_reach_every_call_and_answer() {
    let mut reached = HashSet::new();
    for number in 0..24_000 {
        let case = Stream::Calls.case(11, number);
        reached.insert((case.call as u8, answer(&case)[0]));
    }
    let step = [0, 1, 2, 3, 4, 5, 6, 8].map(|number| (0, number));
    let run = [0, 1, 2, 3, 5, 6, 8].map(|number| (1, number));
    let interrupt = [0, 1, 2, 7, 13].map(|number| (2, number));
    let reading = [0, 1, 2, 9].map(|number| (4, number));
    for wanted in step.into_iter().chain(run).chain(interrupt).chain(reading) {
        assert!(reached.contains(&wanted), "{wanted:?}");
    }
    assert!(reached.contains(&(3, 0)));
}

/// How many groups a gap at the start of the bytes seems to have.
fn groups(bytes: &[u8]) -> usize {
    bytes.iter().take_while(|&&byte| byte >= 0x80).count() + 1
}

#[test]
fn generated_readings_meet_gaps_of_every_length_under_both_rules() {
    let mut met = HashSet::new();
    for number in 0..40_000 {
        let case = Stream::Calls.case(5, number);
        let log = case.buffers().log;
        let place = case.state.log_place as usize;
        if case.call == Call::LogReading && place < log.len() {
            let after = answer(&case);
            met.insert((case.gap_rule.name(), groups(&log[place..]), after[0]));
        }
    }
    for length in 1..=6 {
        assert_eq!(met.contains(&("old", length, 0)), length <= 3);
        assert_eq!(met.contains(&("new", length, 0)), length <= 5);
        for rule in ["old", "new"] {
            assert!(met.contains(&(rule, length, 9)), "{rule} {length}");
        }
    }
}

#[test]
fn generated_steps_write_gaps_about_both_ceilings() {
    let mut written = HashSet::new();
    for number in 0..40_000 {
        let case = Stream::Calls.case(5, number);
        let after = answer(&case);
        let recorded = case.call == Call::Step && after[0] == 0 && after[46..50] == [0; 4];
        if recorded {
            written.insert(case.state.count);
        }
    }
    for ceiling in [(1u32 << 21) - 1, u32::MAX] {
        for count in ceiling - 1..=ceiling.saturating_add(1) {
            assert!(written.contains(&count), "{count}");
        }
    }
}

#[test]
fn quicker_runs_are_the_runs_with_another_call() {
    let mut reached = HashSet::new();
    for number in 0..6_000 {
        let run = Stream::Runs.case(4, number);
        let mut quicker = Stream::QuickerRuns.case(4, number);
        let (one, other) = (answer(&run), answer(&quicker));
        reached.insert(one[0]);
        assert_eq!(one, other);
        assert_eq!((run.call, quicker.call), (Call::Run, Call::QuickerRun));
        quicker.call = Call::Run;
        assert_eq!(quicker, run);
    }
    for wanted in [0, 1, 2, 3, 4, 5, 6, 8] {
        assert!(reached.contains(&wanted), "{wanted}");
    }
}

#[test]
fn generated_streams_drop_bytes() {
    // steps, runs and interrupts that drop an even and an odd number of bytes
    let mut found = [[0; 2]; 3];
    for number in 0..6_000 {
        let case = Stream::Calls.case(11, number);
        if case.call as usize >= found.len() {
            continue;
        }
        let after = answer(&case);
        let dropped = after[58..62].iter().any(|&byte| byte != 0);
        found[case.call as usize][usize::from(after[58] & 1)] += u32::from(dropped);
    }
    for (call, least) in [(0, [500, 200]), (1, [20, 5]), (2, [50, 10])] {
        for (number, least) in found[call].into_iter().zip(least) {
            assert!(number >= least, "{found:?}");
        }
    }
}
