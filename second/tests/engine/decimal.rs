//! Decimal adjustments, conversions, strings and digit rotations.

use crate::bench::{bench, Bench, TARGET};
use second::state::*;

fn adjusted(first: u8, aw: u16, flags: u16) -> (u16, u16) {
    let after = bench(&[first]).with(AW, aw).flags(flags).done();
    (after.register(AW), after.state.psw & !0xF002)
}

#[test]
fn packed_adjustment_after_addition() {
    assert_eq!(adjusted(0x27, 0x12, 0), (0x12, P));
    assert_eq!(adjusted(0x27, 0x0A, 0), (0x10, AC));
    assert_eq!(adjusted(0x27, 0x9A, 0), (0x00, AC | CY | Z | P));
    assert_eq!(adjusted(0x27, 0xA0, 0), (0x00, CY | Z | P));
    // 99 + 99 = 132h without the carry: digits 98
    assert_eq!(adjusted(0x27, 0x32, AC | CY), (0x98, AC | CY | S));
    assert_eq!(adjusted(0x27, 0x12, V), (0x12, P | V));
}

#[test]
fn packed_adjustment_after_subtraction() {
    assert_eq!(adjusted(0x2F, 0x12, 0), (0x12, P));
    assert_eq!(adjusted(0x2F, 0x0A, 0), (0x04, AC));
    // 00 - 06 borrows, so 60 goes off as well
    assert_eq!(adjusted(0x2F, 0x00, AC), (0x9A, AC | CY | S | P));
    assert_eq!(adjusted(0x2F, 0xA0, 0), (0x40, CY));
    // 06 - 28 = DE
    assert_eq!(adjusted(0x2F, 0xDE, AC | CY), (0x78, AC | CY | P));
}

#[test]
fn unpacked_adjustments() {
    assert_eq!(adjusted(0x37, 0x0139, CY), (0x0109, 0));
    assert_eq!(adjusted(0x37, 0x013A, 0), (0x0200, AC | CY));
    // no carry from AL into AH
    assert_eq!(adjusted(0x37, 0x01FA, 0), (0x0200, AC | CY));
    assert_eq!(adjusted(0x37, 0xFF02, AC | Z), (0x0008, AC | CY | Z));
    assert_eq!(adjusted(0x3F, 0x0209, CY | S), (0x0209, S));
    assert_eq!(adjusted(0x3F, 0x020F, 0), (0x0109, AC | CY));
    // no borrow from AL into AH
    assert_eq!(adjusted(0x3F, 0x0203, AC), (0x010D, AC | CY));
}

#[test]
fn conversions_set_sign_zero_parity_by_al() {
    let after = bench(&[0xD4, 0x0A])
        .with(AW, 0x7763)
        .flags(CY | AC | V | Z)
        .done();
    assert_eq!(after.register(AW), 0x0909);
    assert!(after.has(CY | AC | V | P) && after.lacks(Z | S));
    let after = bench(&[0xD4, 0x0A]).with(AW, 0x0064).done();
    assert_eq!(after.register(AW), 0x0A00);
    assert!(after.has(Z | P));
    let after = bench(&[0xD5, 0x0A]).with(AW, 0x0905).done();
    assert_eq!(after.register(AW), 0x005F);
    // 1A x 0A + FC = 200h, of which the low byte stays
    let after = bench(&[0xD5, 0x0A]).with(AW, 0x1AFC).done();
    assert_eq!(after.register(AW), 0x0000);
    assert!(after.has(Z | P));
}

fn strings(second: u8, digits: u16, left: &[u8], right: &[u8]) -> Bench {
    bench(&[0x0F, second])
        .with(CW, digits)
        .with(IX, 0x100)
        .with(IY, 0x200)
        .bytes(0x100, right)
        .bytes(TARGET + 0x200, left)
}

#[test]
fn string_addition_carries_along() {
    let mut machine = strings(0x20, 4, &[0x99, 0x45], &[0x01, 0x55]);
    assert_eq!(machine.step(), Ok(6));
    assert_eq!(machine.ram[TARGET + 0x200..][..2], [0x00, 0x01]);
    assert!(machine.has(CY) && machine.lacks(Z));
    assert_eq!(machine.register(IX), 0x100);
    assert_eq!(machine.register(IY), 0x200);
    assert_eq!(machine.register(CW), 4);
}

#[test]
fn an_odd_digit_count_takes_the_whole_last_byte() {
    let after = strings(0x20, 3, &[0x50, 0x90], &[0x50, 0x09]).done();
    assert_eq!(after.ram[TARGET + 0x200..][..2], [0x00, 0x00]);
    assert!(after.has(CY | Z));
}

#[test]
fn string_subtraction_and_comparison() {
    // 1000 - 1 = 0999
    let after = strings(0x22, 4, &[0x00, 0x10], &[0x01, 0x00]).done();
    assert_eq!(after.ram[TARGET + 0x200..][..2], [0x99, 0x09]);
    assert!(after.lacks(CY | Z));
    let mut machine = strings(0x26, 4, &[0x21, 0x43], &[0x21, 0x43]);
    assert_eq!(machine.step(), Ok(4));
    assert!(machine.has(Z) && machine.lacks(CY));
    let after = strings(0x26, 2, &[0x01], &[0x02]).done();
    assert_eq!(after.ram[TARGET + 0x200], 0x01);
    assert!(after.has(CY) && after.lacks(Z));
}

#[test]
fn no_digits_give_no_carry_and_zero() {
    let mut machine = strings(0x20, 0xFF00, &[1], &[1]).flags(CY | S | AC);
    assert_eq!(machine.step(), Ok(0));
    assert!(machine.has(Z | S | AC) && machine.lacks(CY));
}

#[test]
fn the_longest_string_has_128_bytes() {
    let machine = strings(0x20, 255, &[0x09; 128], &[0x01; 128]);
    assert_eq!(machine.clone().cycles(), 3 * 128);
    let after = machine.done();
    assert_eq!(after.ram[TARGET + 0x27F], 0x10);
    assert_eq!(after.ram[TARGET + 0x280], 0x00);
}

#[test]
fn a_source_on_stored_bytes_sees_them() {
    // the source is one byte behind the target, in the same segment
    let after = bench(&[0x0F, 0x20])
        .with(CW, 6)
        .with(IX, 0x0FF)
        .with(IY, 0x100)
        .segment(DS1, 0)
        .bytes(0x0FF, &[1, 1, 1, 1])
        .done();
    assert_eq!(after.ram[0x0FF..0x103], [1, 2, 3, 4]);
}

#[test]
fn a_segment_prefix_moves_the_source_alone() {
    let after = bench(&[0x36, 0x0F, 0x20])
        .with(CW, 2)
        .bytes(0x08000, &[0x07])
        .bytes(TARGET, &[0x01])
        .done();
    assert_eq!(after.ram[TARGET], 0x08);
}

#[test]
fn digits_rotate_through_al() {
    let mut machine = bench(&[0x0F, 0x28, 0x07])
        .with(AW, 0x33A5)
        .bytes(0, &[0x12]);
    assert_eq!(machine.step(), Ok(2));
    assert_eq!((machine.ram[0], machine.register(AW)), (0x25, 0x33A1));
    let after = bench(&[0x0F, 0x2A, 0xC3])
        .with(AW, 0x33A5)
        .with(BW, 0x7712)
        .flags(CY | Z)
        .done();
    assert_eq!((after.register(BW), after.register(AW)), (0x7751, 0x33A2));
    assert_eq!(after.state.psw, 0xF002 | CY | Z);
}

#[test]
fn al_as_the_rotated_operand_keeps_its_high_digit() {
    assert_eq!(
        bench(&[0x0F, 0x28, 0xC0])
            .with(AW, 0x12)
            .done()
            .register(AW),
        0x11
    );
    assert_eq!(
        bench(&[0x0F, 0x2A, 0xC0])
            .with(AW, 0x12)
            .done()
            .register(AW),
        0x12
    );
}
