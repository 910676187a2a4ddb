//! Jumps, calls, returns and restarts.

use super::card;
use second::state::*;

/// NZ Z NC C PO PE P M: the flag and whether it is wanted.
const CONDITIONS: [(u16, bool); 8] = [
    (Z, false),
    (Z, true),
    (CY, false),
    (CY, true),
    (P, false),
    (P, true),
    (S, false),
    (S, true),
];

/// For each condition and each pair of flags: whether it holds.
fn each_condition(look: impl Fn(u8, u16, bool)) {
    for (code, (flag, wanted)) in (0u8..).zip(CONDITIONS) {
        let all = Z | CY | P | S;
        for flags in [0, flag, all & !flag, all] {
            look(code << 3, flags, (flags & flag != 0) == wanted);
        }
    }
}

#[test]
fn jumps() {
    each_condition(|code, flags, taken| {
        let mut machine = card(&[0xC2 | code, 0x34, 0x12]).flags(flags);
        assert_eq!(machine.step(), Ok(0));
        assert_eq!(machine.state.pc, if taken { 0x1234 } else { 3 });
    });
    assert_eq!(card(&[0xC3, 0x34, 0x12]).done().state.pc, 0x1234);
    let after = card(&[0xE9]).with(BW, 0x413E).done();
    assert_eq!((after.state.pc, after.state.segment[PS]), (0x413E, 0x2000));
}

#[test]
fn calls() {
    each_condition(|code, flags, taken| {
        let mut machine = card(&[0xC4 | code, 0x34, 0x12])
            .with(BP, 0x400)
            .flags(flags);
        if taken {
            assert_eq!((machine.step(), machine.state.pc), (Ok(1), 0x1234));
            assert_eq!((machine.register(BP), machine.word_at(0x3FE)), (0x3FE, 3));
        } else {
            assert_eq!((machine.step(), machine.state.pc), (Ok(0), 3));
            assert_eq!(machine.register(BP), 0x400);
        }
    });
    let mut machine = card(&[0xCD, 0x34, 0x12]).with(BP, 0x401);
    assert_eq!((machine.step(), machine.state.pc), (Ok(2), 0x1234));
    assert_eq!(machine.word_at(0x3FF), 3);
}

#[test]
fn returns() {
    each_condition(|code, flags, taken| {
        let mut machine = card(&[0xC0 | code])
            .with(BP, 0x400)
            .words(0x400, &[0x1234])
            .flags(flags);
        if taken {
            assert_eq!((machine.step(), machine.state.pc), (Ok(1), 0x1234));
            assert_eq!(machine.register(BP), 0x402);
        } else {
            assert_eq!((machine.step(), machine.state.pc), (Ok(0), 1));
            assert_eq!(machine.register(BP), 0x400);
        }
    });
    let machine = card(&[0xC9]).with(BP, 0x400).words(0x400, &[0x1234]);
    assert_eq!(machine.done().state.pc, 0x1234);
}

#[test]
fn restarts() {
    for number in 0..8u8 {
        let mut machine = card(&[0xC7 | number << 3]).with(BP, 0x400);
        assert_eq!(machine.step(), Ok(1));
        assert_eq!(machine.state.pc, 8 * u16::from(number));
        assert_eq!((machine.register(BP), machine.word_at(0x3FE)), (0x3FE, 1));
        assert_eq!(machine.state.segment[PS], 0x2000);
    }
}
