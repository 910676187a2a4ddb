//! Traps, single steps, halts and interrupts.

use crate::bench::{bench, Bench, STACK};
use second::refusal::Refusal;
use second::state::*;

/// Vectors n lead to 0100+n:0200+n; SP is 0100.
fn with_vectors(code: &[u8]) -> Bench {
    let words: Vec<u16> = (0..256).flat_map(|n| [0x200 + n, 0x100 + n]).collect();
    bench(code).words(0, &words).with(SP, 0x100)
}

fn trapped_to(machine: &Bench) -> Option<u16> {
    let vector = machine.state.pc.wrapping_sub(0x200);
    let entered = machine.state.segment[PS] == vector.wrapping_add(0x100);
    (vector < 256 && entered).then_some(vector)
}

/// PSW, PS and PC as the trap pushed them.
fn pushed(machine: &Bench) -> [u16; 3] {
    [0xFE, 0xFC, 0xFA].map(|offset| machine.word_at(STACK + offset))
}

#[test]
fn breaks_push_the_next_pc_and_clear_ie() {
    for (code, vector, next) in [
        (&[0xCC][..], 3, 1),
        (&[0xCD, 0x03], 3, 2),
        (&[0xCD, 0xFF], 255, 2),
    ] {
        let mut machine = with_vectors(code).flags(IE | DIR | CY);
        assert_eq!(machine.step(), Ok(5));
        assert_eq!(trapped_to(&machine), Some(vector));
        assert_eq!(pushed(&machine), [0xF603, 0x2000, next]);
        assert_eq!(machine.state.psw, 0xF403);
        assert_eq!(machine.register(SP), 0xFA);
    }
}

#[test]
fn an_odd_stack_doubles_the_pushes() {
    assert_eq!(with_vectors(&[0xCC]).with(SP, 0x101).cycles(), 8);
}

#[test]
fn overflow_break() {
    let mut machine = with_vectors(&[0xCE]);
    assert_eq!(machine.step(), Ok(0));
    assert_eq!(machine.state.pc, 1);
    let after = with_vectors(&[0xCE]).flags(V).done();
    assert_eq!(trapped_to(&after), Some(4));
}

#[test]
fn index_checks_are_signed_and_read_both_bounds() {
    // bounds -2 to 5
    for (index, inside) in [
        (0xFFFE, true),
        (0xFFFD, false),
        (5, true),
        (6, false),
        (0, true),
    ] {
        let mut machine = with_vectors(&[0x62, 0x06, 0x00, 0x04])
            .with(AW, index)
            .words(0x400, &[0xFFFE, 5]);
        let cycles = machine.step().expect("CHKIND is in");
        assert_eq!(cycles, if inside { 2 } else { 7 });
        assert_eq!(trapped_to(&machine), (!inside).then_some(5));
        if !inside {
            assert_eq!(pushed(&machine)[2], 4);
        }
    }
}

#[test]
fn the_single_step_trap_follows_the_instruction() {
    let mut machine = with_vectors(&[0x40]).flags(BRK | IE);
    assert_eq!(machine.step(), Ok(5));
    assert_eq!(trapped_to(&machine), Some(1));
    assert_eq!(machine.register(AW), 1);
    assert_eq!(pushed(&machine), [0xF302, 0x2000, 1]);
    assert_eq!(machine.state.psw, 0xF002);
}

#[test]
fn an_own_trap_takes_the_place_of_the_single_step_trap() {
    let mut machine = with_vectors(&[0xCC]).flags(BRK);
    assert_eq!(machine.step(), Ok(5));
    assert_eq!(trapped_to(&machine), Some(3));
    assert_eq!(pushed(&machine)[0], 0xF102);
    let division = with_vectors(&[0xF6, 0xF1]).flags(BRK).done();
    assert_eq!(trapped_to(&division), Some(0));
}

#[test]
fn a_break_that_is_not_taken_is_single_stepped() {
    assert_eq!(
        trapped_to(&with_vectors(&[0xCE]).flags(BRK).done()),
        Some(1)
    );
}

#[test]
fn a_halt_under_single_step_does_not_halt() {
    let after = with_vectors(&[0xF4]).flags(BRK).done();
    assert_eq!(trapped_to(&after), Some(1));
    assert!(!after.state.halted);
    let after = with_vectors(&[0xF4]).done();
    assert!(after.state.halted);
    assert_eq!(after.state.pc, 1);
}

#[test]
fn break_counts_as_it_was_before_the_step() {
    // POP PSW that sets BRK is not trapped; one that clears it is
    let sets = with_vectors(&[0x9D]).words(STACK + 0x100, &[BRK]).done();
    assert_eq!((sets.state.pc, sets.state.psw), (1, 0xF102));
    let clears = with_vectors(&[0x9D])
        .flags(BRK)
        .words(STACK + 0x100, &[CY])
        .done();
    assert_eq!(trapped_to(&clears), Some(1));
    // the pop raised SP by 2 before the pushes
    assert_eq!(clears.word_at(STACK + 0x100), 0xF003);
    assert_eq!(clears.word_at(STACK + 0x0FC), 1);
}

#[test]
fn an_unfinished_repeat_is_single_stepped_to_its_first_prefix() {
    let mut machine = with_vectors(&[0x90, 0x2E, 0xF3, 0xAA]).with(CW, 3);
    machine.step().expect("NOP is in");
    machine.state.psw |= BRK;
    assert_eq!(machine.step(), Ok(6));
    assert_eq!(pushed(&machine)[2], 1);
    let finished = with_vectors(&[0xF3, 0xAA]).with(CW, 1).flags(BRK).done();
    assert_eq!(pushed(&finished)[2], 2);
    let empty = with_vectors(&[0xF3, 0xAA]).flags(BRK).done();
    assert_eq!(pushed(&empty)[2], 2);
}

#[test]
fn vectors_are_read_before_the_pushes() {
    // the stack lies on vector 3 itself: SS:SP is 0000:0012
    let after = with_vectors(&[0xCC]).segment(SS, 0).with(SP, 0x12).done();
    assert_eq!(trapped_to(&after), Some(3));
    assert_eq!(after.word_at(0x0C), 1);
}

#[test]
fn an_interrupt_enters_and_ends_a_halt() {
    let mut machine = with_vectors(&[0x90]).flags(IE | BRK);
    machine.state.halted = true;
    machine.state.count = 7;
    assert_eq!(machine.interrupt(0x42, true), Ok(5));
    assert_eq!(trapped_to(&machine), Some(0x42));
    assert_eq!(pushed(&machine), [0xF302, 0x2000, 0]);
    assert!(!machine.state.halted);
    assert_eq!((machine.state.psw, machine.state.count), (0xF002, 7));
}

#[test]
fn ie_masks_only_maskable_interrupts() {
    let mut machine = with_vectors(&[0x90]);
    machine.state.halted = true;
    let before = machine.clone();
    let masked = machine.interrupt(9, true);
    assert_eq!(masked, Err(Refusal::InterruptMasked));
    assert_eq!(machine, before);
    assert_eq!(machine.interrupt(9, false), Ok(5));
    assert_eq!(trapped_to(&machine), Some(9));
}

#[test]
fn a_reset_gives_the_reset_state() {
    let mut machine = with_vectors(&[0x90]).flags(CY);
    machine.state.halted = true;
    machine.state.log_place = 1000;
    machine.on(|m| m.reset());
    assert_eq!(machine.state, State::after_reset());
    assert_eq!(
        (machine.state.segment[PS], machine.state.psw),
        (0xFFFF, 0xF002)
    );
}
