//! BRKEM, CALLN, RETEM, the permission, and traps and interrupts over both modes.

use super::card;
use crate::bench::{bench, Bench, STACK};
use second::state::*;

const BRKEM: [u8; 3] = [0x0F, 0xFF, 0x40];
const CALLN: [u8; 3] = [0xED, 0xED, 0x40];
const RETEM: [u8; 2] = [0xED, 0xFD];
const RETI: [u8; 1] = [0xCF];
const POP_PSW: [u8; 1] = [0x9D];

/// Vector 40h leads to 1234:5678, vector 1 to 0ABC:0DEF.
fn with_vectors(machine: Bench) -> Bench {
    machine
        .words(0x100, &[0x5678, 0x1234])
        .words(4, &[0x0DEF, 0x0ABC])
        .with(SP, 0x200)
}

/// PC, PS and PSW on the native stack at this SP.
fn saved(machine: &Bench, sp: usize) -> [u16; 3] {
    [0, 2, 4].map(|above| machine.word_at(STACK + sp + above))
}

fn place(machine: &Bench) -> (u16, u16) {
    (machine.state.segment[PS], machine.state.pc)
}

#[test]
fn brkem_enters_the_8080_mode() {
    for kept in [0, IE | V | DIR | CY] {
        let mut machine = with_vectors(bench(&BRKEM)).flags(kept);
        assert_eq!(machine.step(), Ok(5));
        assert_eq!(place(&machine), (0x1234, 0x5678));
        assert_eq!(saved(&machine, 0x1FA), [3, 0x2000, 0xF002 | kept]);
        assert_eq!((machine.register(SP), machine.register(BP)), (0x1FA, 0));
        assert_eq!(machine.state.psw, 0x7002 | kept);
        assert!(machine.state.may_write_mode);
    }
    // prefixes stand before it as before any native instruction
    let machine = with_vectors(bench(&[0x2E, 0xF3, 0x0F, 0xFF, 0x40]));
    assert_eq!(saved(&machine.done(), 0x1FA)[0], 5);
}

#[test]
fn calln_enters_native_mode_and_keeps_the_permission() {
    for kept in [0, IE | V | DIR | CY] {
        let mut machine = with_vectors(card(&CALLN)).flags(kept);
        assert_eq!(machine.step(), Ok(5));
        assert_eq!(place(&machine), (0x1234, 0x5678));
        assert_eq!(saved(&machine, 0x1FA), [3, 0x2000, 0x7002 | kept]);
        assert_eq!((machine.register(SP), machine.register(BP)), (0x1FA, 0));
        assert_eq!(machine.state.psw, 0xF002 | kept);
        assert!(machine.state.may_write_mode);
    }
}

#[test]
fn retem_enters_native_mode_whatever_was_popped() {
    for (word, psw) in [(0xF002, 0xF002), (0x0000, 0xF002), (0x7FFF, 0xFFD7)] {
        let machine = card(&RETEM)
            .with(SP, 0x201)
            .words(STACK + 0x201, &[7, 8, word]);
        let mut after = machine.clone();
        assert_eq!(after.step(), Ok(6));
        assert_eq!(place(&after), (8, 7));
        assert_eq!((after.register(SP), after.state.psw), (0x207, psw));
        assert!(!after.state.may_write_mode);
    }
}

#[test]
fn a_popped_psw_writes_the_mode_only_under_the_permission() {
    for (code, psw_above) in [(&RETI[..], 4), (&POP_PSW[..], 0)] {
        for word in [0x0000, 0xFFFF, 0x7FFF, 0x8000] {
            let mut machine = bench(code)
                .with(SP, 0x200)
                .words(STACK + 0x200 + psw_above, &[word]);
            let flags = word & 0x0FD5;
            let native = machine.clone().done();
            assert_eq!(native.state.psw, 0xF002 | flags);
            machine.state.may_write_mode = true;
            let after = machine.done();
            assert_eq!(after.state.psw, 0x7002 | flags | word & 0x8000);
            assert!(after.state.may_write_mode);
        }
    }
}

#[test]
fn a_round_through_both_modes() {
    // native: BRKEM 40h at 2000:0000; 8080 at 1000:0000: MVI A,5; CALLN 41h; INR A; RETEM; native at 1100:0000: RETI
    let mut machine = bench(&BRKEM)
        .with(SP, 0x200)
        .words(0x100, &[0, 0x1000, 0, 0x1100])
        .bytes(0x10000, &[0x3E, 0x05, 0xED, 0xED, 0x41, 0x3C, 0xED, 0xFD])
        .bytes(0x11000, &RETI);
    let report = machine.run(6);
    assert_eq!((report.refusal, report.steps), (None, 6));
    assert_eq!(place(&machine), (0x2000, 3));
    assert_eq!(machine.register(AW), 6);
    assert_eq!((machine.register(SP), machine.state.psw), (0x200, 0xF002));
    assert!(!machine.state.may_write_mode);
}

#[test]
fn an_inner_retem_takes_the_permission_too() {
    // BRKEM, CALLN, BRKEM, RETEM, then RETI: the saved mode of CALLN is not written any more
    let mut machine = bench(&BRKEM)
        .with(SP, 0x200)
        .words(0x100, &[0, 0x1000, 0, 0x1100, 0, 0x1200])
        .bytes(0x10000, &[0xED, 0xED, 0x41])
        .bytes(0x11000, &[0x0F, 0xFF, 0x42, 0xCF])
        .bytes(0x12000, &RETEM);
    assert_eq!(machine.run(4).steps, 4);
    assert_eq!(place(&machine), (0x1100, 3));
    assert!(!machine.state.may_write_mode);
    assert_eq!(machine.run(1).steps, 1);
    assert_eq!(place(&machine), (0x1000, 3));
    assert!(machine.state.psw & MODE != 0);
}

#[test]
fn an_interrupt_enters_native_mode_and_its_return_restores_the_mode() {
    for halted in [false, true] {
        let mut machine = with_vectors(card(&[0x00])).flags(IE | BRK | CY);
        machine.state.halted = halted;
        machine.state.count = 7;
        assert_eq!(machine.interrupt(0x40, true), Ok(5));
        assert_eq!(place(&machine), (0x1234, 0x5678));
        assert_eq!(saved(&machine, 0x1FA), [0, 0x2000, 0x7002 | IE | BRK | CY]);
        assert_eq!(machine.state.psw, 0xF002 | CY);
        assert!(machine.state.may_write_mode && !machine.state.halted);
        assert_eq!(machine.state.count, 7);
        machine = machine.bytes(0x12340 + 0x5678, &RETI).done();
        assert_eq!(place(&machine), (0x2000, 0));
        assert_eq!(machine.state.psw, 0x7002 | IE | BRK | CY);
    }
    let mut masked = with_vectors(card(&[0x00]));
    assert_eq!(
        masked
            .interrupt(0x40, true)
            .map_err(|refusal| refusal.number()),
        Err(7)
    );
    masked.state.after_segment_load = true;
    assert_eq!(
        masked
            .interrupt(0x40, false)
            .map_err(|refusal| refusal.number()),
        Err(13)
    );
}

#[test]
fn the_single_step_trap_follows_8080_instructions() {
    let mut machine = with_vectors(card(&[0x3C])).flags(BRK | IE);
    assert_eq!(machine.step(), Ok(5));
    assert_eq!(place(&machine), (0x0ABC, 0x0DEF));
    assert_eq!(saved(&machine, 0x1FA), [1, 0x2000, 0x7002 | BRK | IE]);
    assert_eq!(machine.state.psw, 0xF002);
    let after = with_vectors(card(&[0x76])).flags(BRK).done();
    assert!(!after.state.halted);
}

#[test]
fn the_single_step_trap_follows_changes_of_the_mode() {
    // it saves the mode then in force
    for (code, psw) in [(BRKEM, 0x7002 | BRK), (CALLN, 0xF002 | BRK)] {
        let machine = if code == BRKEM {
            bench(&code)
        } else {
            card(&code)
        };
        let mut machine = with_vectors(machine).flags(BRK);
        assert_eq!(machine.step(), Ok(10));
        assert_eq!(place(&machine), (0x0ABC, 0x0DEF));
        assert_eq!(saved(&machine, 0x1F4), [0x5678, 0x1234, psw]);
        assert_eq!(machine.state.psw, 0xF002);
    }
    let machine = with_vectors(card(&RETEM)).flags(BRK);
    let mut machine = machine.words(STACK + 0x200, &[7, 8, 0x0001]);
    assert_eq!(machine.step(), Ok(8));
    assert_eq!(saved(&machine, 0x200), [7, 8, 0xF003]);
    assert!(!machine.state.may_write_mode);
}

#[test]
fn number_2_reads_the_mode_by_the_permission() {
    for code in [&[0x00][..], &[0x90]] {
        let mut machine = bench(code);
        machine.state.psw &= !MODE;
        assert_eq!(machine.clone().refused(), 2);
        machine.state.may_write_mode = true;
        assert!(machine.clone().step().is_ok());
        for bit in [1, 3, 5, 12, 13, 14] {
            let mut spoilt = machine.clone();
            spoilt.state.psw ^= 1 << bit;
            assert_eq!(spoilt.refused(), 2);
        }
        machine.state.psw |= MODE;
        assert!(machine.step().is_ok());
    }
    let mut machine = card(&[0x00]);
    machine.state.after_segment_load = true;
    machine.state.halted = true;
    assert_eq!(machine.refused(), 2);
}

#[test]
fn reset_gives_native_mode_without_the_permission() {
    let mut machine = card(&[0x00]);
    machine.on(|machine| machine.reset());
    assert_eq!(machine.state, State::after_reset());
    assert_eq!(
        (machine.state.psw, machine.state.may_write_mode),
        (0xF002, false)
    );
}

#[test]
fn a_finished_step_clears_the_mark_of_a_segment_load() {
    let mut machine = card(&[0x00]);
    machine.state.after_segment_load = true;
    assert!(!machine.done().state.after_segment_load);
}
