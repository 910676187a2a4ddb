//! Sums, differences, logic, decimal adjustment and rotates.

use super::card;
use crate::bench::Bench;
use second::state::*;

const FIVE: u16 = CY | AC | S | Z | P;
const OTHERS: u16 = V | DIR | IE;

/// A and the five flags after a step; the other flags keep, set or not.
fn a_and_flags(machine: Bench) -> (u8, u16) {
    let plain = machine.clone().done();
    let with_others = machine.flags(OTHERS).done();
    assert!(plain.lacks(OTHERS) && with_others.has(OTHERS));
    assert_eq!(plain.state.psw | OTHERS, with_others.state.psw);
    (plain.state.al(), plain.state.psw & FIVE)
}

/// An operation on A and an immediate byte.
fn immediate(code: u8, a: u8, right: u8, before: u16) -> (u8, u16) {
    let machine = card(&[code, right]).with(AW, u16::from(a)).flags(before);
    a_and_flags(machine)
}

#[test]
fn additions() {
    let (adi, aci) = (0xC6, 0xCE);
    for (code, a, right, before, result, flags) in [
        (adi, 0x6C, 0x2E, 0, 0x9A, S | P | AC),
        (adi, 0x6C, 0x2E, CY, 0x9A, S | P | AC),
        (adi, 0x14, 0x42, 0, 0x56, P),
        (adi, 0x56, 0xBE, 0, 0x14, CY | AC | P),
        (adi, 0xFF, 0x01, 0, 0x00, CY | AC | Z | P),
        (adi, 0xF0, 0x10, AC, 0x00, CY | Z | P),
        (aci, 0x42, 0x3D, 0, 0x7F, 0),
        (aci, 0x42, 0x3D, CY, 0x80, S | AC),
        (aci, 0xFF, 0xFF, CY, 0xFF, CY | AC | S | P),
        (aci, 0x0F, 0x00, CY, 0x10, AC),
    ] {
        let wanted = (result, flags);
        assert_eq!(
            immediate(code, a, right, before),
            wanted,
            "{a:02X} {right:02X}"
        );
    }
}

#[test]
fn differences_have_the_carry_out_of_bit_3_as_ac() {
    let (sui, sbi) = (0xD6, 0xDE);
    for (code, a, right, before, result, flags) in [
        // a byte from itself: no borrow anywhere
        (sui, 0x3E, 0x3E, 0, 0x00, AC | Z | P),
        (sui, 0x3E, 0x3E, CY, 0x00, AC | Z | P),
        (sui, 0x00, 0x01, 0, 0xFF, CY | S | P),
        (sui, 0x10, 0x01, 0, 0x0F, P),
        (sui, 0x1F, 0x20, 0, 0xFF, CY | AC | S | P),
        (sbi, 0x04, 0x02, CY, 0x01, AC),
        (sbi, 0x00, 0x00, CY, 0xFF, CY | S | P),
        (sbi, 0x04, 0x04, 0, 0x00, AC | Z | P),
        (sbi, 0x00, 0xFF, CY, 0x00, CY | Z | P),
        (sbi, 0x10, 0x0F, CY, 0x00, Z | P),
    ] {
        let wanted = (result, flags);
        assert_eq!(
            immediate(code, a, right, before),
            wanted,
            "{a:02X} {right:02X}"
        );
    }
}

#[test]
fn comparisons_keep_a() {
    for (a, right, flags) in [
        (0x0A, 0x05, AC | P),
        (0x02, 0x05, CY | S),
        (0xE5, 0x05, AC | S),
        (0x4A, 0x4A, AC | Z | P),
    ] {
        assert_eq!(
            immediate(0xFE, a, right, 0),
            (a, flags),
            "{a:02X} {right:02X}"
        );
    }
}

#[test]
fn logic() {
    let (ani, xri, ori) = (0xE6, 0xEE, 0xF6);
    for (code, a, right, result, flags) in [
        // AC is bit 3 of either operand
        (ani, 0xFC, 0x0F, 0x0C, AC | P),
        (ani, 0xF8, 0x07, 0x00, AC | Z | P),
        (ani, 0xF4, 0x08, 0x00, AC | Z | P),
        (ani, 0xF4, 0x03, 0x00, Z | P),
        (ani, 0xFF, 0x80, 0x80, AC | S),
        (xri, 0x5C, 0x78, 0x24, P),
        (xri, 0xFF, 0xFF, 0x00, Z | P),
        (ori, 0x33, 0x0F, 0x3F, P),
        (ori, 0x80, 0x00, 0x80, S),
    ] {
        for before in [0, FIVE] {
            let wanted = (result, flags);
            assert_eq!(
                immediate(code, a, right, before),
                wanted,
                "{a:02X} {right:02X}"
            );
        }
    }
}

#[test]
fn all_eight_operations_take_all_eight_operands() {
    // A 6C and each operand 2E
    let results = [0x9A, 0x9B, 0x3E, 0x3D, 0x2C, 0x42, 0x6E, 0x6C];
    for (operation, result) in (0u8..).zip(results) {
        for source in 0..8 {
            let code = 0x80 | operation << 3 | source;
            let machine = card(&[code])
                .with(AW, 0x116C)
                .with(CW, 0x2E2E)
                .with(DW, 0x2E2E)
                .with(BW, 0x2E2E)
                .bytes(0x2E2E, &[0x2E])
                .flags(CY);
            let cycles = machine.clone().cycles();
            assert_eq!(cycles, u32::from(source == 6), "{code:02X}");
            let after = machine.done();
            // A with itself is another sum
            if source != 7 {
                assert_eq!(after.register(AW), 0x1100 | result, "{code:02X}");
            }
            assert_eq!(after.state.pc, 1);
        }
    }
}

#[test]
fn registers_are_where_the_paper_has_them() {
    // ADD B, C, D, E, H, L of CH, CL, DH, DL, BH, BL, and ADD A of AL
    let bytes = [0x21, 0x12, 0x23, 0x32, 0x25, 0x52, 0x00, 0x01];
    for (source, byte) in (0u8..).zip(bytes).filter(|&(source, _)| source != 6) {
        let machine = card(&[0x80 | source])
            .with(AW, 0x7701)
            .with(CW, 0x2112)
            .with(DW, 0x2332)
            .with(BW, 0x2552);
        assert_eq!(machine.done().state.al(), byte + 1);
    }
}

#[test]
fn memory_is_at_hl_in_ds0() {
    let machine = card(&[0x86])
        .segment(DS0, 0x0100)
        .with(BW, 0xFFFF)
        .with(AW, 1)
        .bytes(0x10FFF, &[0x41]);
    assert_eq!(machine.done().state.al(), 0x42);
}

#[test]
fn counting_keeps_cy() {
    let (inr, dcr) = (0x3C, 0x3D);
    for (code, a, result, flags) in [
        (inr, 0x99, 0x9A, S | P),
        (inr, 0x0F, 0x10, AC),
        (inr, 0xFF, 0x00, AC | Z | P),
        (inr, 0x7F, 0x80, AC | S),
        (dcr, 0x40, 0x3F, P),
        (dcr, 0x41, 0x40, AC),
        (dcr, 0x01, 0x00, AC | Z | P),
        (dcr, 0x00, 0xFF, S | P),
        (dcr, 0x80, 0x7F, 0),
    ] {
        for carry in [0, CY] {
            let machine = card(&[code]).with(AW, a).flags(carry);
            assert_eq!(a_and_flags(machine), (result, flags | carry), "{a:02X}");
        }
    }
    // INR M and DCR M read and write; INR H is BH
    let mut machine = card(&[0x34]).with(BW, 0x101).bytes(0x101, &[0x7F]);
    assert_eq!((machine.step(), machine.ram[0x101]), (Ok(2), 0x80));
    let mut machine = card(&[0x35]).with(BW, 0x101);
    assert_eq!((machine.step(), machine.ram[0x101]), (Ok(2), 0xFF));
    assert_eq!(card(&[0x24]).with(BW, 0x12FF).done().register(BW), 0x13FF);
}

#[test]
fn pairs_count_without_flags() {
    for (code, register, before, after) in [
        (0x03, CW, 0x00FF, 0x0100),
        (0x13, DW, 0x38FF, 0x3900),
        (0x23, BW, 0xFFFF, 0x0000),
        (0x33, BP, 0xFFFF, 0x0000),
        (0x0B, CW, 0x0000, 0xFFFF),
        (0x1B, DW, 0x0100, 0x00FF),
        (0x2B, BW, 0x9800, 0x97FF),
        (0x3B, BP, 0x0001, 0x0000),
    ] {
        for flags in [0, FIVE] {
            let machine = card(&[code]).with(register, before).flags(flags).done();
            assert_eq!(machine.register(register), after, "{code:02X}");
            assert_eq!(machine.state.psw & FIVE, flags);
        }
    }
}

#[test]
fn sums_of_pairs_change_cy_alone() {
    for (code, register, other, hl, sum, carry) in [
        (0x09, CW, 0x339F, 0xA17B, 0xD51A, 0),
        (0x19, DW, 0x8000, 0x8000, 0x0000, CY),
        (0x39, BP, 0xFFFF, 0x0001, 0x0000, CY),
        (0x29, BW, 0x8001, 0x8001, 0x0002, CY),
    ] {
        for flags in [0, FIVE] {
            let machine = card(&[code])
                .with(BW, hl)
                .with(register, other)
                .flags(flags)
                .done();
            assert_eq!(machine.register(BW), sum, "{code:02X}");
            assert_eq!(machine.state.psw & FIVE, flags & !CY | carry);
        }
    }
}

#[test]
fn decimal_adjustment() {
    for (a, before, result, flags) in [
        (0x9B, 0, 0x01, CY | AC),
        (0x3C, 0, 0x42, AC | P),
        // a half carry from before is used up
        (0x41, AC, 0x47, P),
        (0x32, CY | AC, 0x98, CY | S),
        (0x99, 0, 0x99, S | P),
        (0xA0, 0, 0x00, CY | Z | P),
        (0xFA, 0, 0x60, CY | AC | P),
        (0xFB, 0, 0x61, CY | AC),
        (0x00, CY, 0x60, CY | P),
        (0x00, 0, 0x00, Z | P),
    ] {
        let machine = card(&[0x27]).with(AW, a).flags(before);
        assert_eq!(a_and_flags(machine), (result, flags), "{a:02X}");
    }
}

#[test]
fn rotates_change_cy_alone() {
    let (rlc, rrc, ral, rar) = (0x07, 0x0F, 0x17, 0x1F);
    for (code, a, carry, result, carry_after) in [
        (rlc, 0xF2, 0, 0xE5, CY),
        (rlc, 0x72, CY, 0xE4, 0),
        (rrc, 0xF2, CY, 0x79, 0),
        (rrc, 0x01, 0, 0x80, CY),
        (ral, 0xB5, 0, 0x6A, CY),
        (ral, 0x35, CY, 0x6B, 0),
        (rar, 0x6A, CY, 0xB5, 0),
        (rar, 0x6B, 0, 0x35, CY),
    ] {
        for others in [0, FIVE & !CY] {
            let machine = card(&[code]).with(AW, a).flags(carry | others);
            assert_eq!(
                a_and_flags(machine),
                (result, carry_after | others),
                "{code:02X}"
            );
        }
    }
}

#[test]
fn complements_and_the_carry() {
    for flags in [0, FIVE] {
        let of = |code| a_and_flags(card(&[code]).with(AW, 0x51).flags(flags));
        assert_eq!(of(0x2F), (0xAE, flags));
        assert_eq!(of(0x37), (0x51, flags | CY));
        assert_eq!(of(0x3F), (0x51, flags ^ CY));
        assert_eq!(of(0x00), (0x51, flags));
    }
}
