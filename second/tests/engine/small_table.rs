//! The twelve lines of document 01's small table.

use crate::bench::{bench, STACK, TARGET};
use second::memory::address;
use second::state::*;

#[test]
fn line_1_packed_adjustment() {
    let after = bench(&[0x27]).with(AW, 0x00FB).done();
    assert_eq!(after.register(AW), 0x0061);
    assert!(after.has(CY | AC) && after.lacks(P));
}

#[test]
fn line_2_packed_subtraction() {
    let after = bench(&[0x0F, 0x22])
        .with(CW, 2)
        .with(IX, 0x100)
        .bytes(0x100, &[0x28])
        .bytes(TARGET, &[0x06])
        .done();
    assert_eq!(after.ram[TARGET], 0x78);
    assert!(after.has(CY) && after.lacks(Z));
}

#[test]
fn line_3_quotient_of_minus_8000h_traps() {
    let after = bench(&[0xF7, 0xF9])
        .with(AW, 0x8000)
        .with(DW, 0xFFFF)
        .with(CW, 1)
        .words(0, &[0x1234, 0x5678])
        .done();
    assert_eq!((after.state.pc, after.state.segment[PS]), (0x1234, 0x5678));
    assert_eq!((after.register(AW), after.register(DW)), (0x8000, 0xFFFF));
}

#[test]
fn line_4_quotient_of_minus_7fffh_stands() {
    let after = bench(&[0xF7, 0xF9])
        .with(AW, 0x8001)
        .with(DW, 0xFFFF)
        .with(CW, 1)
        .done();
    assert_eq!((after.register(AW), after.register(DW)), (0x8001, 0));
}

#[test]
fn line_5_division_truncates_toward_zero() {
    let after = bench(&[0xF7, 0xF9])
        .with(AW, 0xFFF9)
        .with(DW, 0xFFFF)
        .with(CW, 2)
        .done();
    assert_eq!((after.register(AW), after.register(DW)), (0xFFFD, 0xFFFF));
}

#[test]
fn line_6_shift_counts_are_not_masked() {
    let after = bench(&[0xD2, 0xE0])
        .with(AW, 0x5501)
        .with(CW, 33)
        .flags(CY)
        .done();
    assert_eq!(after.register(AW), 0x5500);
    assert!(after.has(Z) && after.lacks(CY));
}

#[test]
fn line_7_push_sp_stores_the_lowered_sp() {
    let after = bench(&[0x54]).done();
    assert_eq!(after.register(SP), 0xFFFE);
    assert_eq!(after.word_at(STACK + 0xFFFE), 0xFFFE);
}

#[test]
fn line_8_addition_overflows() {
    let after = bench(&[0x04, 0x01])
        .with(AW, 0x007F)
        .flags(CY | Z | P)
        .done();
    assert_eq!(after.register(AW), 0x0080);
    assert!(after.has(V | S | AC) && after.lacks(CY | Z | P));
}

#[test]
fn line_9_a_word_wraps_in_its_segment() {
    let mut machine = bench(&[0xA1, 0xFF, 0xFF])
        .segment(DS0, 0x1000)
        .bytes(0x1FFFF, &[0x34])
        .bytes(0x10000, &[0x12]);
    assert_eq!(machine.step(), Ok(2));
    assert_eq!(machine.register(AW), 0x1234);
}

#[test]
fn line_10_addresses_wrap() {
    assert_eq!(address(0xFFFF, 0x0010), 0);
}

#[test]
fn line_11_insertion_across_two_words() {
    let mut machine = bench(&[0x0F, 0x31, 0xCA])
        .with(AW, 0x000D)
        .with(DW, 14)
        .with(CW, 3)
        .with(IY, 0x40);
    assert_eq!(machine.step(), Ok(4));
    assert_eq!(machine.word_at(TARGET + 0x40), 0x4000);
    assert_eq!(machine.word_at(TARGET + 0x42), 0x0003);
    assert_eq!((machine.register(DW), machine.register(IY)), (2, 0x42));
}

#[test]
fn line_12_the_number_300() {
    let mut machine = bench(&[0xE6, 0x00]);
    machine.state.count = 299;
    let after = machine.done();
    assert_eq!(after.log[..2], [0xAC, 0x02]);
}
