//! Interrupts and the single-step trap after a segment load.

use crate::bench::{bench, Bench, STACK};
use second::refusal::Refusal;
use second::state::*;

/// The vectors lead to 0900:0000.
fn with_vectors(code: &[u8]) -> Bench {
    let words: Vec<u16> = (0..256).flat_map(|_| [0, 0x900]).collect();
    bench(code).words(0, &words).with(SP, 0x100)
}

fn marked(code: &[u8]) -> Bench {
    let mut machine = with_vectors(code);
    machine.state.after_segment_load = true;
    machine
}

fn trapped(machine: &Bench) -> bool {
    machine.state.segment[PS] == 0x900
}

#[test]
fn loads_of_segment_registers_set_the_mark() {
    for code in [
        // MOV DS1,AW; SS,AW; DS0,AW; DS0,[0100]; with prefixes
        &[0x8E, 0xC0][..],
        &[0x8E, 0xD0],
        &[0x8E, 0xD8],
        &[0x8E, 0x1E, 0x00, 0x01],
        &[0x2E, 0xF3, 0x8E, 0xC0],
        // POP DS1, SS, DS0
        &[0x07],
        &[0x17],
        &[0x1F],
    ] {
        assert!(
            with_vectors(code).done().state.after_segment_load,
            "{code:02X?}"
        );
        assert!(marked(code).done().state.after_segment_load, "{code:02X?}");
    }
}

#[test]
fn everything_else_clears_it() {
    for code in [
        // NOP, MOV AW,DS1, POP AW, POP [0100], PUSH SS
        &[0x90][..],
        &[0x8C, 0xC0],
        &[0x58],
        &[0x8F, 0x06, 0x00, 0x01],
        &[0x16],
        // MOV DS1,AW,[0100] and MOV DS0,AW,[0100], which load pointers
        &[0xC4, 0x06, 0x00, 0x01],
        &[0xC5, 0x06, 0x00, 0x01],
        // PS loaded by far BR, far RET and RETI
        &[0xEA, 0, 0, 0, 0x20],
        &[0xCB],
        &[0xCF],
        // own traps: BRK 3, a division by 0
        &[0xCC],
        &[0xF6, 0xF1],
        // a port, a halt
        &[0xE6, 0x60],
        &[0xF4],
    ] {
        assert!(!marked(code).done().state.after_segment_load, "{code:02X?}");
    }
}

#[test]
fn each_step_of_a_repeat_clears_it() {
    for count in [0, 1, 3] {
        let after = marked(&[0xF3, 0xAA]).with(CW, count).done();
        assert!(!after.state.after_segment_load);
    }
}

#[test]
fn no_interrupt_is_accepted_while_it_stands() {
    for may_be_masked in [false, true] {
        for flags in [0, IE] {
            let mut machine = marked(&[0x90]).flags(flags);
            let before = machine.clone();
            let outcome = machine.interrupt(9, may_be_masked);
            assert_eq!(outcome, Err(Refusal::InterruptHeldOff));
            assert_eq!(Refusal::InterruptHeldOff.number(), 13);
            assert_eq!(machine, before);
        }
    }
    // after the next step it is
    let mut machine = marked(&[0x90]).flags(IE).done();
    assert_eq!(machine.interrupt(9, true), Ok(5));
    assert!(trapped(&machine) && !machine.state.after_segment_load);
}

#[test]
fn thirteen_comes_after_one_and_two_and_before_seven() {
    let number = |machine: &mut Bench| machine.interrupt(9, true).map_err(Refusal::number);
    let mut machine = marked(&[0x90]);
    assert_eq!(number(&mut machine), Err(13));
    machine.state.psw = 0;
    assert_eq!(number(&mut machine), Err(2));
    machine.rom = vec![0; 1 << 20];
    assert_eq!(number(&mut machine), Err(1));
    assert_eq!(number(&mut with_vectors(&[0x90])), Err(7));
}

#[test]
fn a_stack_is_loaded_whole() {
    // MOV SS,AW; MOV SP,imm16
    let mut machine = with_vectors(&[0x8E, 0xD0, 0xBC, 0x00, 0x02])
        .with(AW, 0x1000)
        .flags(IE)
        .done();
    assert_eq!(machine.interrupt(9, true), Err(Refusal::InterruptHeldOff));
    let mut machine = machine.done();
    assert_eq!(machine.interrupt(9, true), Ok(5));
    // PC is the third word pushed on 1000:0200
    assert_eq!(machine.word_at(0x10000 + 0x1FA), 5);
}

#[test]
fn the_single_step_trap_waits_for_the_next_instruction() {
    let loaded = with_vectors(&[0x8E, 0xC0, 0x90]).flags(BRK).done();
    assert!(!trapped(&loaded) && loaded.has(BRK));
    assert_eq!((loaded.state.pc, loaded.register(SP)), (2, 0x100));
    let after = loaded.done();
    assert!(trapped(&after));
    assert_eq!(after.word_at(STACK + 0xFA), 3);
    // several loads in a row: the first step that is none is trapped
    let mut machine = with_vectors(&[0x07, 0x8E, 0xD8, 0x1F, 0x90]).flags(BRK);
    assert_eq!(machine.run(3).steps, 3);
    assert!(!trapped(&machine));
    assert!(trapped(&machine.done()));
    // under a mark that is not its own, a step is trapped as ever
    assert!(trapped(&marked(&[0x90]).flags(BRK).done()));
}

#[test]
fn a_load_that_is_single_stepped_makes_no_trap_access() {
    let mut machine = with_vectors(&[0x1F]).flags(BRK);
    assert_eq!(machine.step(), Ok(1));
}

#[test]
fn a_refused_step_keeps_the_mark() {
    for code in [&[0xF1][..], &[0x26; 4], &[0xE4, 0x00]] {
        let mut machine = marked(code);
        assert!(machine.step().is_err());
        assert!(machine.state.after_segment_load);
        assert!(machine.run(9).refusal.is_some());
        assert!(machine.state.after_segment_load);
    }
}

#[test]
fn marked_and_halted_is_refused() {
    let mut machine = marked(&[0x90]);
    machine.state.halted = true;
    assert_eq!(machine.clone().refused(), 2);
    assert_eq!(machine.run(0).refusal, Some(Refusal::BadState));
    assert_eq!(machine.interrupt(9, false), Err(Refusal::BadState));
    machine.on(|m| m.reset());
    assert_eq!(machine.state, State::after_reset());
}
