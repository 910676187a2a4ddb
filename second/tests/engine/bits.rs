//! Single bits and bit fields.

use crate::bench::{bench, TARGET};
use second::state::*;

#[test]
fn test1_sets_zero_and_clears_carry_and_overflow() {
    let flags = CY | V | P | AC | S;
    let after = bench(&[0x0F, 0x10, 0xC3])
        .with(BW, 0x0008)
        .with(CW, 0x0B)
        .flags(flags | Z)
        .done();
    assert_eq!(after.state.psw, 0xF002 | P | AC | S);
    let mut machine = bench(&[0x0F, 0x19, 0x07, 0x1F])
        .flags(flags)
        .words(0, &[0x7FFF]);
    assert_eq!(machine.step(), Ok(1));
    assert_eq!(machine.state.psw, 0xF002 | P | AC | S | Z);
    assert_eq!(machine.state.pc, 4);
}

#[test]
fn bits_are_cleared_set_and_turned() {
    for (second, result) in [(0x12, 0xF7), (0x14, 0xFF), (0x16, 0xF7)] {
        let after = bench(&[0x0F, second, 0xC0])
            .with(AW, 0xFF)
            .with(CW, 3)
            .done();
        assert_eq!(after.register(AW), result);
    }
    for (second, result) in [(0x1B, 0x0000), (0x1D, 0x8000), (0x1F, 0x8000)] {
        let mut machine = bench(&[0x0F, second, 0x06, 0x01, 0x00, 0xFF]).flags(Z);
        assert_eq!(machine.step(), Ok(4));
        assert_eq!(machine.word_at(1), result);
        assert_eq!(machine.state.psw, 0xF002 | Z);
        assert_eq!(machine.state.pc, 6);
    }
}

#[test]
fn cl_numbers_a_bit_of_itself() {
    let after = bench(&[0x0F, 0x12, 0xC1]).with(CW, 0x01).done();
    assert_eq!(after.register(CW), 0x01);
    let after = bench(&[0x0F, 0x16, 0xC1]).with(CW, 0x09).done();
    assert_eq!(after.register(CW), 0x0B);
}

#[test]
fn insertion_within_one_word() {
    // four bits at offset 12 end exactly at the word's end
    let mut machine = bench(&[0x0F, 0x39, 0xC1, 0x03])
        .with(AW, 0xFFF5)
        .with(CW, 0x440C)
        .words(TARGET, &[0x0ABC, 0x7777]);
    assert_eq!(machine.step(), Ok(2));
    assert_eq!(machine.word_at(TARGET), 0x5ABC);
    assert_eq!(machine.word_at(TARGET + 2), 0x7777);
    assert_eq!((machine.register(CW), machine.register(IY)), (0x4400, 2));
}

#[test]
fn insertion_keeps_the_bits_around() {
    let machine = bench(&[0x0F, 0x39, 0xC1, 0x0F])
        .with(AW, 0x0000)
        .with(CW, 0xFC)
        .with(IY, 1)
        .words(TARGET + 1, &[0xFFFF, 0xFFFF]);
    assert_eq!(machine.clone().cycles(), 8);
    let after = machine.done();
    assert_eq!(after.word_at(TARGET + 1), 0x0FFF);
    assert_eq!(after.word_at(TARGET + 3), 0xF000);
    assert_eq!((after.register(CW), after.register(IY)), (0x0C, 3));
}

#[test]
fn insertion_ignores_a_segment_prefix() {
    let after = bench(&[0x36, 0x0F, 0x39, 0xC1, 0x00]).with(AW, 1).done();
    assert_eq!(after.word_at(TARGET), 1);
    assert_eq!((after.register(CW), after.register(IY)), (1, 0));
}

#[test]
fn extraction_across_two_words() {
    let mut machine = bench(&[0x0F, 0x33, 0xD3])
        .with(AW, 0xFFFF)
        .with(BW, 0x0C)
        .with(DW, 0x07)
        .with(IX, 0x11)
        .words(0x11, &[0xA123, 0x456B]);
    assert_eq!(machine.step(), Ok(4));
    assert_eq!(machine.register(AW), 0x00BA);
    assert_eq!((machine.register(BW), machine.register(IX)), (0x04, 0x13));
}

#[test]
fn the_offset_register_wins_over_aw() {
    let after = bench(&[0x0F, 0x3B, 0xC0, 0x0F])
        .with(AW, 0x0000)
        .words(0, &[0xABCD])
        .done();
    assert_eq!((after.register(AW), after.register(IX)), (0xAB00, 2));
    let after = bench(&[0x0F, 0x33, 0xC4])
        .with(AW, 0x0203)
        .words(0, &[0x00FC])
        .done();
    // offset 2 in AH, code 3 in AL: four bits 1111, then AH becomes 6
    assert_eq!(after.register(AW), 0x060F);
}

#[test]
fn extraction_obeys_a_segment_prefix() {
    let after = bench(&[0x26, 0x0F, 0x3B, 0xC1, 0x07])
        .words(TARGET, &[0x0055])
        .done();
    assert_eq!(after.register(AW), 0x55);
    assert_eq!(after.register(CW), 8);
}
