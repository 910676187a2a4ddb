//! Generated cases of the 8080 mode: what they reach.

use second::judge::answer::answer;
use second::judge::case::{Call, Case};
use second::judge::generate::Stream;
use second::machine::Machine;
use second::state::*;
use std::collections::HashSet;

fn is_8080(psw_high_byte: u8) -> bool {
    psw_high_byte & 0x80 == 0
}

/// The first two bytes of code, where they lie in RAM.
fn code_of(case: &Case) -> Option<(u8, u8)> {
    let lent = case.buffers();
    let at = |offset: u16| {
        let segment = usize::from(case.state.segment[PS]);
        let address = segment * 16 + usize::from(case.state.pc.wrapping_add(offset));
        lent.ram.get(address % (1 << 20)).copied()
    };
    Some((at(0)?, at(1)?))
}

#[test]
fn every_first_byte_is_done_in_the_8080_mode() {
    let (mut done, mut refused) = (HashSet::new(), HashSet::new());
    for number in 0..12_000 {
        let case = Stream::Cards.case(2, number);
        if case.call != Call::Step || case.state.psw & MODE != 0 {
            continue;
        }
        let after = answer(&case);
        match (code_of(&case), after[0]) {
            (Some(code), 0) => done.insert(if code.0 == 0xED { code } else { (code.0, 0) }),
            (Some((first, _)), 3) => refused.insert(first),
            _ => continue,
        };
    }
    // 244 first bytes, CALLN and RETEM; eleven unknown bytes and ED
    assert_eq!(done.len(), 246);
    assert_eq!(refused.len(), 12);
}

#[test]
fn every_way_between_the_modes_is_gone() {
    let mut ways = HashSet::new();
    let mut answers = HashSet::new();
    for number in 0..12_000 {
        let case = Stream::Cards.case(2, number);
        let after = answer(&case);
        answers.insert((case.call as u8, after[0]));
        if case.call == Call::LogReading {
            continue;
        }
        let from = is_8080((case.state.psw >> 8) as u8);
        let to = is_8080(after[37]);
        ways.insert((case.call as u8, from, to, after[71]));
    }
    let (step, run, interrupt) = (0, 1, 2);
    for wanted in [
        // native without and with the permission, BRKEM, RETI or POP PSW
        (step, false, false, 0),
        (step, false, false, 1),
        (step, false, true, 1),
        // 8080, CALLN or a trap, RETEM
        (step, true, true, 1),
        (step, true, false, 1),
        (step, true, false, 0),
        (run, false, true, 1),
        (run, false, false, 1),
        (run, true, true, 1),
        (run, true, false, 1),
        (run, true, false, 0),
        (interrupt, true, false, 1),
        (interrupt, false, false, 1),
        (interrupt, false, false, 0),
    ] {
        assert!(ways.contains(&wanted), "{wanted:?}");
    }
    for wanted in [
        (0, 2),
        (0, 3),
        (0, 5),
        (0, 6),
        (0, 8),
        (1, 3),
        (1, 8),
        (2, 2),
        (2, 7),
        (2, 13),
    ] {
        assert!(answers.contains(&wanted), "{wanted:?}");
    }
}

/// How often the mode changes over the steps of a run, and at how many places code is done in both modes.
fn changes_and_shared_places(case: &Case) -> (usize, usize) {
    let mut lent = case.buffers();
    let mut machine = Machine::new(
        case.state.clone(),
        &mut lent.ram,
        &lent.rom,
        &case.tape,
        &mut lent.log,
    );
    let mut changes = 0;
    let mut places = [HashSet::new(), HashSet::new()];
    for _ in 0..case.budget {
        let native = machine.state.is_native();
        let place = (machine.state.segment[PS], machine.state.pc);
        if machine.step().is_err() {
            break;
        }
        places[usize::from(native)].insert(place);
        changes += usize::from(machine.state.is_native() != native);
    }
    let [card, native] = places;
    (changes, card.intersection(&native).count())
}

#[test]
fn runs_go_from_mode_to_mode() {
    let runs = (0..4_000)
        .map(|number| Stream::Cards.case(3, number))
        .filter(|case| case.call == Call::Run);
    let seen: Vec<(usize, usize)> = runs.map(|case| changes_and_shared_places(&case)).collect();
    let with_two = seen.iter().filter(|(changes, _)| *changes >= 2).count();
    let with_ten = seen.iter().filter(|(changes, _)| *changes >= 10).count();
    let with_shared = seen.iter().filter(|(_, shared)| *shared > 0).count();
    assert!(
        with_two > 80 && with_ten > 40 && with_shared > 30,
        "{with_two} {with_ten} {with_shared}"
    );
}

#[test]
fn card_runs_are_the_same_both_ways() {
    for number in 0..2_000 {
        let run = Stream::CardRuns.case(4, number);
        let quicker = Stream::QuickerCardRuns.case(4, number);
        assert_eq!((run.call, quicker.call), (Call::Run, Call::QuickerRun));
        assert_eq!(answer(&run), answer(&quicker));
    }
}
