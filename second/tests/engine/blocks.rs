//! Block primitives and their repeats.

use crate::bench::{bench, TARGET};
use second::state::*;

#[test]
fn a_move_goes_from_ds0_ix_to_ds1_iy() {
    let mut machine = bench(&[0xA5])
        .with(IX, 0x101)
        .with(IY, 0x200)
        .words(0x101, &[0xBEEF]);
    assert_eq!(machine.step(), Ok(3));
    assert_eq!(machine.word_at(TARGET + 0x200), 0xBEEF);
    assert_eq!((machine.register(IX), machine.register(IY)), (0x103, 0x202));
}

#[test]
fn direction_turns_the_pointers() {
    let after = bench(&[0xA4]).with(IX, 0).with(IY, 0).flags(DIR).done();
    assert_eq!((after.register(IX), after.register(IY)), (0xFFFF, 0xFFFF));
    let after = bench(&[0xAB])
        .with(IY, 1)
        .with(AW, 0x1234)
        .flags(DIR)
        .done();
    assert_eq!(after.register(IY), 0xFFFF);
    assert_eq!(after.word_at(TARGET + 1), 0x1234);
}

#[test]
fn a_segment_prefix_moves_the_source_alone() {
    let after = bench(&[0x2E, 0xA4]).with(IX, 0).done();
    assert_eq!(after.ram[TARGET], 0x2E);
}

#[test]
fn loads_and_stores() {
    let after = bench(&[0xAC]).with(AW, 0x1122).bytes(0, &[0x33]).done();
    assert_eq!((after.register(AW), after.register(IX)), (0x1133, 1));
    let after = bench(&[0xAA]).with(AW, 0x1122).done();
    assert_eq!((after.ram[TARGET], after.ram[TARGET + 1]), (0x22, 0));
}

#[test]
fn comparisons_take_the_source_or_accumulator_first() {
    // 1 - 2 borrows
    let mut machine = bench(&[0xA6]).bytes(0, &[1]).bytes(TARGET, &[2]);
    assert_eq!(machine.step(), Ok(2));
    assert!(machine.has(CY | S | AC | P) && machine.lacks(Z));
    let after = bench(&[0xAF]).with(AW, 5).words(TARGET, &[5]).done();
    assert!(after.has(Z) && after.lacks(CY));
    assert_eq!((after.register(IX), after.register(IY)), (0, 2));
}

#[test]
fn a_repeat_does_one_element_a_step() {
    let mut machine = bench(&[0xF3, 0xA4]).with(CW, 2).bytes(0, &[7, 8]);
    assert_eq!(machine.step(), Ok(2));
    assert_eq!((machine.register(CW), machine.state.pc), (1, 0));
    assert_eq!(machine.ram[TARGET..TARGET + 2], [7, 0]);
    assert_eq!(machine.step(), Ok(2));
    assert_eq!((machine.register(CW), machine.state.pc), (0, 2));
    assert_eq!(machine.ram[TARGET..TARGET + 2], [7, 8]);
}

#[test]
fn pc_stays_on_the_first_of_several_prefixes() {
    let after = bench(&[0x26, 0xF0, 0xF2, 0xAA]).with(CW, 9).done();
    assert_eq!((after.state.pc, after.register(CW)), (0, 8));
}

#[test]
fn an_empty_repeat_only_moves_pc() {
    let mut machine = bench(&[0xF3, 0x6C]).log_length(0);
    machine.state.count = 5;
    assert_eq!(machine.step(), Ok(0));
    let mut expected = bench(&[0xF3, 0x6C]).log_length(0);
    expected.state.count = 6;
    expected.state.pc = 2;
    assert_eq!(machine, expected);
}

#[test]
fn comparisons_end_by_their_flag() {
    // prefix, whether it goes on over equal bytes, and over a smaller source
    for (prefix, equal, smaller) in [
        (0xF3, true, false),
        (0xF2, false, true),
        (0x65, false, true),
        (0x64, true, false),
    ] {
        for (byte, goes_on) in [(2, equal), (1, smaller)] {
            let after = bench(&[prefix, 0xA6])
                .with(CW, 5)
                .bytes(0, &[byte])
                .bytes(TARGET, &[2])
                .done();
            assert_eq!(after.state.pc, if goes_on { 0 } else { 2 });
            assert_eq!(after.register(CW), 4);
        }
    }
}

#[test]
fn the_last_element_ends_a_comparison_that_would_go_on() {
    let after = bench(&[0xF3, 0xAE]).with(CW, 1).done();
    assert_eq!((after.state.pc, after.register(CW)), (2, 0));
    assert!(after.has(Z));
}

#[test]
fn other_primitives_ignore_the_flags() {
    for prefix in [0x64, 0x65, 0xF2, 0xF3] {
        for flags in [0, CY | Z] {
            let after = bench(&[prefix, 0xAA]).with(CW, 3).flags(flags).done();
            assert_eq!(after.state.pc, 0);
        }
    }
}

#[test]
fn a_repeat_before_anything_else_is_ignored() {
    let after = bench(&[0xF3, 0x40]).with(CW, 0).done();
    assert_eq!((after.register(AW), after.register(CW)), (1, 0));
    assert_eq!(after.state.pc, 2);
    let after = bench(&[0xF2, 0x0F, 0x20]).with(CW, 2).done();
    assert_eq!((after.register(CW), after.state.pc), (2, 3));
}

#[test]
fn the_last_of_two_repeats_counts() {
    let after = bench(&[0xF2, 0xF3, 0xA6]).with(CW, 2).done();
    assert_eq!(after.state.pc, 0);
    let after = bench(&[0xF3, 0xF2, 0xA6]).with(CW, 2).done();
    assert_eq!(after.state.pc, 3);
}

#[test]
fn a_repeat_can_write_over_itself() {
    // STM writes 40h over its own prefix, so that INC AW runs next
    let mut machine = bench(&[0xF3, 0xAA, 0x90])
        .segment(DS1, 0x2000)
        .with(AW, 0x0040)
        .with(CW, 3);
    assert_eq!(machine.run(2).steps, 2);
    assert_eq!((machine.register(AW), machine.register(CW)), (0x41, 2));
    assert_eq!(machine.state.pc, 1);
}
