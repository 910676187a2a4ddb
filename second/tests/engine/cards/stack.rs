//! The stack at DS0:BP.

use super::card;
use second::state::*;

#[test]
fn pairs_are_pushed_and_popped() {
    for (register, push, pop) in [(CW, 0xC5, 0xC1), (DW, 0xD5, 0xD1), (BW, 0xE5, 0xE1)] {
        let mut machine = card(&[push]).with(register, 0x8F9D).with(BP, 0x3A2C);
        assert_eq!(machine.step(), Ok(1));
        assert_eq!(machine.ram[0x3A2A..0x3A2C], [0x9D, 0x8F]);
        assert_eq!((machine.register(BP), machine.register(SP)), (0x3A2A, 0));
        let mut machine = card(&[pop]).with(BP, 0x1239).bytes(0x1239, &[0x3D, 0x93]);
        assert_eq!(machine.step(), Ok(2));
        assert_eq!(machine.register(register), 0x933D);
        assert_eq!((machine.register(BP), machine.register(SP)), (0x123B, 0));
    }
}

#[test]
fn the_stack_is_in_ds0_and_wraps() {
    let machine = card(&[0xC5])
        .segment(DS0, 0x1000)
        .with(CW, 0x1234)
        .with(BP, 1);
    let after = machine.done();
    assert_eq!(after.register(BP), 0xFFFF);
    assert_eq!((after.ram[0x1FFFF], after.ram[0x10000]), (0x34, 0x12));
}

#[test]
fn a_and_the_flags_are_pushed() {
    // bit 1 is always one; the upper byte of PSW is not pushed
    let mut machine = card(&[0xF5])
        .with(AW, 0x771F)
        .with(BP, 0x502A)
        .flags(CY | Z | P | V | IE);
    assert_eq!(machine.step(), Ok(1));
    assert_eq!(machine.ram[0x5028..0x502A], [0x47, 0x1F]);
    let after = card(&[0xF5]).with(BP, 0x502A).flags(S | AC).done();
    assert_eq!(after.ram[0x5028], 0x92);
}

#[test]
fn a_and_the_flags_are_popped() {
    for (low, flags) in [(0xC3, S | Z | CY), (0xFF, S | Z | AC | P | CY), (0x00, 0)] {
        for others in [0, V | DIR | IE] {
            let machine = card(&[0xF1])
                .with(BP, 0x2C00)
                .with(AW, 0x7700)
                .bytes(0x2C00, &[low, 0xFF])
                .flags(others);
            let after = machine.done();
            assert_eq!(after.register(AW), 0x77FF);
            assert_eq!(after.state.psw, 0x7002 | flags | others);
            assert_eq!(
                (after.register(BP), after.state.may_write_mode),
                (0x2C02, true)
            );
        }
    }
}

#[test]
fn hl_is_exchanged_with_the_top() {
    for (bp, cycles) in [(0x10AD, 4), (0x10AE, 2)] {
        let mut machine = card(&[0xE3])
            .with(BW, 0x0B3C)
            .with(BP, bp)
            .bytes(usize::from(bp), &[0xF0, 0x0D]);
        assert_eq!(machine.step(), Ok(cycles));
        assert_eq!((machine.register(BW), machine.register(BP)), (0x0DF0, bp));
        assert_eq!(machine.word_at(usize::from(bp)), 0x0B3C);
    }
}
