//! Pushes, pops and stack frames.

use crate::bench::{bench, STACK};
use second::state::*;

#[test]
fn push_all_stores_the_sp_from_before() {
    let mut machine = bench(&[0x60]);
    machine.state.general = [1, 2, 3, 4, 0x100, 6, 7, 8];
    assert_eq!(machine.step(), Ok(8));
    assert_eq!(machine.register(SP), 0xF0);
    let stored: Vec<u16> = (0..8)
        .map(|i| machine.word_at(STACK + 0xF0 + 2 * i))
        .collect();
    assert_eq!(stored, [8, 7, 6, 0x100, 4, 3, 2, 1]);
}

#[test]
fn pop_all_drops_the_word_of_sp() {
    let mut machine = bench(&[0x61])
        .with(SP, 0x101)
        .words(STACK + 0x101, &[8, 7, 6, 0xDEAD, 4, 3, 2, 1]);
    assert_eq!(machine.step(), Ok(16));
    assert_eq!(machine.state.general, [1, 2, 3, 4, 0x111, 6, 7, 8]);
}

#[test]
fn pop_sp_takes_the_popped_word() {
    for code in [&[0x5C][..], &[0x8F, 0xC4]] {
        let after = bench(code)
            .with(SP, 0x100)
            .words(STACK + 0x100, &[0x4321])
            .done();
        assert_eq!(after.register(SP), 0x4321);
    }
}

#[test]
fn push_through_ff_stores_the_lowered_sp_too() {
    let after = bench(&[0xFF, 0xF4]).with(SP, 0x100).done();
    assert_eq!(after.word_at(STACK + 0xFE), 0xFE);
}

#[test]
fn pushes_of_memory_and_immediates() {
    let mut machine = bench(&[0xFF, 0x37]).with(SP, 0x101).words(0, &[0x1234]);
    assert_eq!(machine.step(), Ok(3));
    assert_eq!(machine.word_at(STACK + 0xFF), 0x1234);
    let after = bench(&[0x68, 0x34, 0x12]).with(SP, 2).done();
    assert_eq!((after.word_at(STACK), after.state.pc), (0x1234, 3));
    let after = bench(&[0x6A, 0x80]).with(SP, 2).done();
    assert_eq!((after.word_at(STACK), after.state.pc), (0xFF80, 2));
}

#[test]
fn pop_to_memory_reads_then_writes() {
    let mut machine = bench(&[0x8F, 0x06, 0x10, 0x00])
        .with(SP, 0x100)
        .words(STACK + 0x100, &[0x4321]);
    assert_eq!(machine.step(), Ok(2));
    assert_eq!(
        (machine.word_at(0x10), machine.register(SP)),
        (0x4321, 0x102)
    );
}

#[test]
fn segment_registers() {
    for (push, code) in [(0x06, DS1), (0x0E, PS), (0x16, SS), (0x1E, DS0)] {
        let after = bench(&[push]).with(SP, 0x100).done();
        assert_eq!(after.word_at(STACK + 0xFE), after.state.segment[code]);
    }
    for (pop, code) in [(0x07, DS1), (0x17, SS), (0x1F, DS0)] {
        let after = bench(&[pop])
            .with(SP, 0x100)
            .words(STACK + 0x100, &[0x4321])
            .done();
        assert_eq!(after.state.segment[code], 0x4321);
        assert_eq!(after.register(SP), 0x102);
    }
}

#[test]
fn the_status_word_goes_to_the_stack_and_back() {
    let after = bench(&[0x9C]).with(SP, 2).flags(CY | V).done();
    assert_eq!(after.word_at(STACK), 0xF803);
    for (word, loaded) in [(0x0000, 0xF002), (0xFFFF, 0xFFD7), (0x0028, 0xF002)] {
        let after = bench(&[0x9D]).words(STACK, &[word]).done();
        assert_eq!(after.state.psw, loaded);
    }
}

#[test]
fn a_frame_of_level_0() {
    let mut machine = bench(&[0xC8, 0x06, 0x00, 0x00])
        .with(SP, 0x100)
        .with(BP, 0x200);
    assert_eq!(machine.step(), Ok(1));
    assert_eq!((machine.register(BP), machine.register(SP)), (0xFE, 0xF8));
    assert_eq!(machine.word_at(STACK + 0xFE), 0x200);
}

#[test]
fn a_frame_of_level_1_holds_its_own_pointer() {
    let mut machine = bench(&[0xC8, 0x06, 0x00, 0x01])
        .with(SP, 0x100)
        .with(BP, 0x200);
    assert_eq!(machine.step(), Ok(2));
    assert_eq!((machine.register(BP), machine.register(SP)), (0xFE, 0xF6));
    assert_eq!(machine.word_at(STACK + 0xFC), 0xFE);
}

#[test]
fn a_frame_of_level_3_copies_two_pointers() {
    let mut machine = bench(&[0xC8, 0x04, 0x00, 0x03])
        .with(SP, 0x100)
        .with(BP, 0x200)
        .words(STACK + 0x1FC, &[0xBBBB, 0xAAAA]);
    assert_eq!(machine.step(), Ok(6));
    assert_eq!((machine.register(BP), machine.register(SP)), (0xFE, 0xF4));
    let stored: Vec<u16> = (0..4)
        .map(|i| machine.word_at(STACK + 0xFE - 2 * i))
        .collect();
    assert_eq!(stored, [0x200, 0xAAAA, 0xBBBB, 0xFE]);
}

#[test]
fn the_longest_step_makes_1028_cycles() {
    let machine = bench(&[0xC8, 0x00, 0x00, 0xFF])
        .with(SP, 0x4001)
        .with(BP, 0x6001);
    assert_eq!(machine.clone().cycles(), 1020);
    assert_eq!(machine.flags(BRK).cycles(), 1028);
}

#[test]
fn dispose_undoes_prepare() {
    let mut machine = bench(&[0xC8, 0x04, 0x00, 0x03, 0xC9])
        .with(SP, 0x100)
        .with(BP, 0x200);
    machine.step().expect("PREPARE is in");
    assert_eq!(machine.step(), Ok(1));
    assert_eq!((machine.register(BP), machine.register(SP)), (0x200, 0x100));
}
