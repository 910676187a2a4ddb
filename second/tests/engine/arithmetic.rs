//! Addition, subtraction, logic, multiplication and division.

use crate::bench::bench;
use second::state::*;

const ALL: u16 = CY | P | AC | Z | S | V;

#[test]
fn addition_with_carry_in_and_out() {
    let after = bench(&[0x15, 0x00, 0x00]).with(AW, 0xFFFF).flags(CY).done();
    assert_eq!(after.register(AW), 0);
    assert!(after.has(CY | Z | P | AC) && after.lacks(S | V));
}

#[test]
fn addition_ignores_the_old_carry() {
    let after = bench(&[0x05, 0x01, 0x00]).with(AW, 2).flags(ALL).done();
    assert_eq!(after.register(AW), 3);
    assert!(after.has(P) && after.lacks(CY | AC | Z | S | V));
}

#[test]
fn parity_looks_at_the_low_byte_alone() {
    let after = bench(&[0x05, 0x00, 0x01]).with(AW, 0x0003).done();
    assert_eq!(after.register(AW), 0x0103);
    assert!(after.has(P));
}

#[test]
fn auxiliary_carry_of_words_comes_from_the_low_digit() {
    let after = bench(&[0x05, 0x80, 0x00]).with(AW, 0x0080).done();
    assert!(after.lacks(AC));
    let after = bench(&[0x05, 0x01, 0x00]).with(AW, 0x000F).done();
    assert!(after.has(AC));
}

#[test]
fn subtraction_borrows() {
    // 0 - 1: SUB AL,CL
    let after = bench(&[0x2A, 0xC1]).with(AW, 0).with(CW, 1).done();
    assert_eq!(after.register(AW), 0x00FF);
    assert!(after.has(CY | AC | S | P) && after.lacks(Z | V));
}

#[test]
fn subtraction_with_borrow_of_the_largest() {
    // 0 - FFFF - 1 = 0 with a borrow
    let after = bench(&[0x1D, 0xFF, 0xFF]).with(AW, 0).flags(CY).done();
    assert_eq!(after.register(AW), 0);
    assert!(after.has(CY | AC | Z | P) && after.lacks(S | V));
}

#[test]
fn subtraction_overflows() {
    // 8000 - 1 = 7FFF
    let after = bench(&[0x2D, 0x01, 0x00]).with(AW, 0x8000).done();
    assert_eq!(after.register(AW), 0x7FFF);
    assert!(after.has(V | AC | P) && after.lacks(CY | S | Z));
}

#[test]
fn comparison_stores_nothing() {
    let mut machine = bench(&[0x38, 0x07]).with(AW, 5).bytes(0, &[5]);
    assert_eq!(machine.step(), Ok(1));
    assert_eq!((machine.ram[0], machine.register(AW)), (5, 5));
    assert!(machine.has(Z | P) && machine.lacks(CY | S | V | AC));
}

#[test]
fn logic_clears_carry_and_overflow_and_keeps_auxiliary_carry() {
    // AND, OR and XOR of AL with 0F
    for (first, result) in [(0x24, 0x05), (0x0C, 0xFF), (0x34, 0xFA)] {
        let after = bench(&[first, 0x0F]).with(AW, 0xF5).flags(ALL).done();
        assert_eq!(after.register(AW), result);
        assert!(after.has(AC) && after.lacks(CY | V | Z));
        let after = bench(&[first, 0x0F]).with(AW, 0xF5).done();
        assert!(after.lacks(AC));
    }
}

#[test]
fn test_of_memory_reads_once_and_writes_nothing() {
    // TEST word [BW+1],FFFF at an odd address
    let mut machine = bench(&[0xF7, 0x47, 0x01, 0xFF, 0xFF]).words(1, &[0x8000]);
    assert_eq!(machine.step(), Ok(2));
    assert!(machine.has(S | P) && machine.lacks(Z | CY | V));
    assert_eq!(machine.state.pc, 5);
}

#[test]
fn increment_and_decrement_keep_the_carry() {
    let after = bench(&[0x40]).with(AW, 0xFFFF).done();
    assert!(after.has(Z | AC | P) && after.lacks(CY | V | S));
    let after = bench(&[0x48]).with(AW, 0).flags(CY).done();
    assert_eq!(after.register(AW), 0xFFFF);
    assert!(after.has(CY | S | AC | P) && after.lacks(Z | V));
    // INC of CH from 7F overflows
    let after = bench(&[0xFE, 0xC5]).with(CW, 0x7F11).done();
    assert_eq!(after.register(CW), 0x8011);
    assert!(after.has(V | S | AC) && after.lacks(CY | Z | P));
}

#[test]
fn word_increment_through_ff_takes_registers() {
    let after = bench(&[0xFF, 0xC4]).with(SP, 0xFF).done();
    assert_eq!(after.register(SP), 0x100);
}

#[test]
fn negation_sets_flags_as_zero_minus_it() {
    let after = bench(&[0xF6, 0xD8]).with(AW, 0).flags(ALL).done();
    assert!(after.has(Z | P) && after.lacks(CY | AC | S | V));
    let after = bench(&[0xF6, 0xD8]).with(AW, 0x80).done();
    assert_eq!(after.register(AW), 0x80);
    assert!(after.has(CY | S | V) && after.lacks(AC | Z | P));
    let after = bench(&[0xF7, 0xD8]).with(AW, 1).done();
    assert_eq!(after.register(AW), 0xFFFF);
    assert!(after.has(CY | S | AC | P) && after.lacks(V | Z));
}

#[test]
fn complement_changes_no_flag() {
    let mut machine = bench(&[0xF7, 0x17]).flags(CY | Z).words(0, &[0x1234]);
    assert_eq!(machine.step(), Ok(2));
    assert_eq!(machine.word_at(0), 0xEDCB);
    assert_eq!(machine.state.psw, 0xF002 | CY | Z);
}

#[test]
fn a_short_immediate_is_widened_with_its_sign() {
    // ADD AW,-1 and OR AW,-128 through 83
    let after = bench(&[0x83, 0xC0, 0xFF]).with(AW, 5).done();
    assert_eq!(after.register(AW), 4);
    let after = bench(&[0x83, 0xC8, 0x80]).with(AW, 1).done();
    assert_eq!(after.register(AW), 0xFF81);
}

#[test]
fn opcode_82_does_what_80_does() {
    let after = bench(&[0x82, 0xE9, 0x02]).with(CW, 0x0101).done();
    assert_eq!(after.register(CW), 0x01FF);
    assert!(after.has(CY));
}

#[test]
fn memory_results_are_read_and_written() {
    // SUB word [0003],0102h at an odd address
    let mut machine = bench(&[0x81, 0x2E, 0x03, 0x00, 0x02, 0x01]).words(3, &[0x0304]);
    assert_eq!(machine.step(), Ok(4));
    assert_eq!(machine.word_at(3), 0x0202);
}

#[test]
fn unsigned_products() {
    let after = bench(&[0xF6, 0xE1]).with(AW, 0x0310).with(CW, 0x10).done();
    assert_eq!(after.register(AW), 0x0100);
    assert!(after.has(CY | V));
    let after = bench(&[0xF6, 0xE1])
        .with(AW, 0x0F)
        .with(CW, 0x11)
        .flags(ALL)
        .done();
    assert_eq!(after.register(AW), 0x00FF);
    assert!(after.lacks(CY | V) && after.has(P | AC | Z | S));
    let after = bench(&[0xF7, 0xE1])
        .with(AW, 0xFFFF)
        .with(CW, 0xFFFF)
        .done();
    assert_eq!((after.register(AW), after.register(DW)), (0x0001, 0xFFFE));
    assert!(after.has(CY | V));
}

#[test]
fn signed_products() {
    // -1 x 1 = -1 fits its low half
    let after = bench(&[0xF6, 0xE9])
        .with(AW, 0xFF)
        .with(CW, 1)
        .flags(CY | V)
        .done();
    assert_eq!(after.register(AW), 0xFFFF);
    assert!(after.lacks(CY | V));
    // -80h x -80h = 4000h
    let after = bench(&[0xF6, 0xE8]).with(AW, 0x80).done();
    assert_eq!(after.register(AW), 0x4000);
    assert!(after.has(CY | V));
    // 2 x 4000h = 8000h does not fit
    let after = bench(&[0xF7, 0xE9])
        .with(AW, 2)
        .with(CW, 0x4000)
        .with(DW, 9)
        .done();
    assert_eq!((after.register(AW), after.register(DW)), (0x8000, 0));
    assert!(after.has(CY | V));
}

#[test]
fn products_with_an_immediate() {
    // CW <- DW x -2 by a byte; 4000h x -2 = -8000h fits
    let after = bench(&[0x6B, 0xCA, 0xFE]).with(DW, 0x4000).flags(CY).done();
    assert_eq!(after.register(CW), 0x8000);
    assert!(after.lacks(CY | V));
    // 4000h x 2 = 8000h does not
    let after = bench(&[0x69, 0xCA, 0x02, 0x00]).with(DW, 0x4000).done();
    assert_eq!(after.register(CW), 0x8000);
    assert!(after.has(CY | V));
    // from memory at an odd address
    let machine = bench(&[0x69, 0x0E, 0x01, 0x00, 0x03, 0x00]).words(1, &[7]);
    assert_eq!(machine.clone().done().register(CW), 21);
    assert_eq!(machine.cycles(), 2);
}

#[test]
fn unsigned_quotients() {
    let after = bench(&[0xF6, 0xF1])
        .with(AW, 0x00FF)
        .with(CW, 0x10)
        .flags(ALL)
        .done();
    assert_eq!(after.register(AW), 0x0F0F);
    assert!(after.has(ALL));
    let after = bench(&[0xF7, 0xF1])
        .with(AW, 0x0001)
        .with(DW, 0x0001)
        .with(CW, 0x0002)
        .done();
    assert_eq!((after.register(AW), after.register(DW)), (0x8000, 1));
}

#[test]
fn unsigned_quotients_that_do_not_fit_trap() {
    for (aw, cl) in [(0x0100, 1), (0x1234, 0), (0, 0)] {
        let after = bench(&[0xF6, 0xF1])
            .with(AW, aw)
            .with(CW, cl)
            .words(0, &[0x0077, 0x0055])
            .done();
        assert_eq!((after.state.pc, after.state.segment[PS]), (0x77, 0x55));
        assert_eq!(after.register(AW), aw);
    }
}

#[test]
fn signed_byte_quotients_at_the_limits() {
    // -7F stands, -80 does not; 7F stands, 80 does not; zero stands
    for (aw, cl, quotient) in [
        (0xFF81, 0x01, Some(0x0081)),
        (0xFF80, 0x01, None),
        (0x007F, 0x01, Some(0x007F)),
        (0x0080, 0x01, None),
        (0xFF80, 0xFF, None),
        (0xFF81, 0xFF, Some(0x007F)),
        (0x0001, 0x02, Some(0x0100)),
        (0xFFFF, 0x02, Some(0xFF00)),
        (0x0007, 0xFE, Some(0x01FD)),
        (0x0000, 0x00, None),
        (0x8000, 0x00, None),
    ] {
        let after = bench(&[0xF6, 0xF9])
            .with(AW, aw)
            .with(CW, cl)
            .words(0, &[0x0077, 0x0055])
            .done();
        let trapped = after.state.segment[PS] == 0x55;
        assert_eq!(trapped, quotient.is_none(), "{aw:04X} by {cl:02X}");
        assert_eq!(after.register(AW), quotient.unwrap_or(aw));
    }
}

#[test]
fn the_smallest_dividend_by_minus_one_traps() {
    let after = bench(&[0xF7, 0xF9])
        .with(DW, 0x8000)
        .with(CW, 0xFFFF)
        .words(0, &[0x0077, 0x0055])
        .done();
    assert_eq!(after.state.segment[PS], 0x55);
    assert_eq!((after.register(AW), after.register(DW)), (0, 0x8000));
}
