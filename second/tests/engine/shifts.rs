//! Shifts and rotations against the sheet's loops of single shifts.

use crate::bench::bench;
use second::state::*;

/// One round of the sheet's loop: the new value and what goes into CY.
fn round(code: u8, value: u32, carry: bool, width: u32) -> (u32, bool) {
    let top = 1 << (width - 1);
    let (low, high) = (value & 1 != 0, value & top != 0);
    let ones = 2 * top - 1;
    let doubled = (value * 2) & ones;
    let at_top = |bit: bool| if bit { top } else { 0 };
    match code {
        0 => (doubled + u32::from(high), high),
        1 => (value / 2 + at_top(low), low),
        2 => (doubled + u32::from(carry), high),
        3 => (value / 2 + at_top(carry), low),
        4 => (doubled, high),
        5 => (value / 2, low),
        _ => (value / 2 + at_top(high), low),
    }
}

fn expected(code: u8, mut value: u32, mut carry: bool, width: u32, count: u32) -> (u32, bool) {
    for _ in 0..count {
        (value, carry) = round(code, value, carry, width);
    }
    (value, carry)
}

#[test]
fn every_count_of_every_byte_shift() {
    for code in [0, 1, 2, 3, 4, 5, 7] {
        for value in [0x00, 0x01, 0x80, 0x7F, 0xFF, 0xA5] {
            for count in 0..=255u8 {
                for carry in [false, true] {
                    let after = bench(&[0xC0, 0xC0 | code << 3, count])
                        .with(AW, 0x3300 | value)
                        .flags(if carry { CY } else { 0 })
                        .done();
                    let (result, out) =
                        expected(code, u32::from(value), carry, 8, u32::from(count));
                    assert_eq!(after.register(AW), 0x3300 | result as u16);
                    assert_eq!(after.has(CY), out);
                }
            }
        }
    }
}

#[test]
fn every_count_of_every_word_shift() {
    for code in [0, 1, 2, 3, 4, 5, 7] {
        for value in [0x0001, 0x8000, 0x7FFF, 0xFFFF, 0x1234] {
            for count in 0..=255u16 {
                let after = bench(&[0xD3, 0xC3 | code << 3])
                    .with(BW, value)
                    .with(CW, 0xEE00 | count)
                    .flags(CY)
                    .done();
                let (result, out) = expected(code, u32::from(value), true, 16, u32::from(count));
                assert_eq!(after.register(BW), result as u16);
                assert_eq!(after.has(CY), out);
            }
        }
    }
}

#[test]
fn count_zero_changes_no_flag_but_reads_and_writes() {
    let flags = CY | P | AC | S | V;
    let mut machine = bench(&[0xD3, 0x27]).flags(flags).words(0, &[0]);
    assert_eq!(machine.step(), Ok(2));
    assert_eq!(machine.state.psw, 0xF002 | flags);
}

#[test]
fn an_odd_shifted_word_takes_four_cycles() {
    let machine = bench(&[0xC1, 0x26, 0x01, 0x00, 0x00]);
    assert_eq!(machine.cycles(), 4);
}

#[test]
fn overflow_of_left_shifts_by_one() {
    // ROL, ROLC and SHL: sign of the result against the carry
    for (code, value, overflow) in [
        (0, 0x40, true),
        (0, 0x80, true),
        (0, 0xC0, false),
        (2, 0x40, true),
        (2, 0xC0, false),
        (4, 0x40, true),
        (4, 0xC0, false),
        (4, 0x80, true),
        (4, 0x01, false),
    ] {
        let after = bench(&[0xD0, 0xC0 | code << 3]).with(AW, value).done();
        assert_eq!(after.has(V), overflow, "{code} of {value:02X}");
    }
}

#[test]
fn overflow_of_right_shifts_by_one() {
    // ROR 01 gives 80; RORC with CY of 00 gives 80; SHR 80 gives 40; SHRA never
    for (code, value, carry, overflow) in [
        (1, 0x01, 0, true),
        (1, 0x81, 0, false),
        (1, 0x80, 0, true),
        (3, 0x00, CY, true),
        (3, 0x80, CY, false),
        (3, 0x80, 0, true),
        (5, 0x80, 0, true),
        (5, 0x7F, 0, false),
        (7, 0x80, 0, false),
        (7, 0x40, 0, false),
    ] {
        let after = bench(&[0xD0, 0xC0 | code << 3])
            .with(AW, value)
            .flags(carry)
            .done();
        assert_eq!(after.has(V), overflow, "{code} of {value:02X}");
    }
}

#[test]
fn other_counts_of_one_keep_overflow() {
    let by_immediate = bench(&[0xC0, 0xE0, 0x01]).with(AW, 0x40).done();
    assert!(by_immediate.lacks(V) && by_immediate.has(S));
    let by_cl = bench(&[0xD2, 0xE0]).with(AW, 1).with(CW, 1).flags(V).done();
    assert!(by_cl.has(V));
}

#[test]
fn rotations_leave_sign_zero_parity_and_shifts_set_them() {
    let rotated = bench(&[0xD0, 0xC8]).with(AW, 0x01).flags(Z | AC).done();
    assert_eq!(rotated.register(AW), 0x80);
    assert!(rotated.has(Z | AC | CY) && rotated.lacks(S | P));
    let shifted = bench(&[0xD0, 0xE8]).with(AW, 0x01).flags(S | AC).done();
    assert!(shifted.has(Z | P | CY | AC) && shifted.lacks(S));
}

#[test]
fn cl_can_shift_itself() {
    let after = bench(&[0xD2, 0xE1]).with(CW, 3).done();
    assert_eq!(after.register(CW), 24);
}
