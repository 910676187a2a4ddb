//! Which bytes name an instruction in the 8080 mode, and how many it has.

use super::card;
use crate::bench::{bench, Bench};
use second::judge::generate::encodings::PREFIXES;
use second::judge::names_8080::name;
use second::state::*;

const UNKNOWN: [u8; 11] = [
    0x08, 0x10, 0x18, 0x20, 0x28, 0x30, 0x38, 0xCB, 0xD9, 0xDD, 0xFD,
];

fn supplied(code: &[u8]) -> Bench {
    card(code).tape(&[1, 2]).with(BP, 0x4000).with(SP, 0x100)
}

#[test]
fn two_hundred_and_forty_four_first_bytes_and_two_after_ed() {
    let accepted = |code: &[u8]| match supplied(code).step() {
        Ok(_) => true,
        Err(_) => supplied(code).refused() != 3,
    };
    let first: Vec<u8> = (0..=255)
        .filter(|&first| first != 0xED && accepted(&[first]))
        .collect();
    assert_eq!(first.len(), 244);
    assert!(UNKNOWN.iter().all(|byte| !first.contains(byte)));
    let after_ed: Vec<u8> = (0..=255)
        .filter(|&second| accepted(&[0xED, second]))
        .collect();
    assert_eq!(after_ed, [0xED, 0xFD]);
}

#[test]
fn there_are_no_prefixes() {
    // 26 2E 36 3E are MVI, 64 65 MOV, F2 JP and F0 RP; F3 is DI
    for prefix in PREFIXES {
        let outcome = supplied(&[prefix; 5]).step();
        assert!(outcome.is_ok(), "{prefix:02X}");
    }
    let after = card(&[0x2E, 0x2E, 0x2E, 0x2E]).done();
    assert_eq!((after.register(BW), after.state.pc), (0x2E, 2));
}

#[test]
fn lengths() {
    for first in (0..=255u8).filter(|first| !UNKNOWN.contains(first)) {
        let (length, goes_elsewhere) = match first {
            0x01 | 0x11 | 0x21 | 0x31 | 0x22 | 0x2A | 0x32 | 0x3A => (3, false),
            0xD3 | 0xDB => (2, false),
            0xED => continue,
            0xC3 | 0xCD => (3, true),
            0xC9 | 0xE9 => (1, true),
            0x00..=0x3F if first & 7 == 6 => (2, false),
            0xC0..=0xFF => match first & 7 {
                0 | 7 => (1, true),
                2 | 4 => (3, true),
                6 => (2, false),
                _ => (1, false),
            },
            _ => (1, false),
        };
        assert_eq!(name(&[first]).length, length, "{first:02X}");
        if !goes_elsewhere {
            let pc = supplied(&[first]).done().state.pc;
            assert_eq!(usize::from(pc), length, "{first:02X}");
        }
    }
}

#[test]
fn names() {
    for (code, words) in [
        (&[0x08][..], "unknown"),
        (&[0x09], "DAD B"),
        (&[0x31], "LXI SP"),
        (&[0x3F], "CMC"),
        (&[0x56], "MOV D,M"),
        (&[0x9F], "SBB A"),
        (&[0xED, 0xED], "CALLN"),
        (&[0xED, 0xFD], "RETEM"),
        (&[0xED, 0x00], "unknown"),
        (&[0xDD], "unknown"),
        (&[0xE4], "CPO"),
        (&[0xF1], "POP PSW"),
        (&[0xFE], "CPI"),
        (&[0xFF], "RST 7"),
    ] {
        assert_eq!(name(code).name, words, "{code:02X?}");
    }
}

#[test]
fn code_wraps_in_its_segment() {
    // LXI B at PS:FFFE
    let mut machine = card(&[0x12]).bytes(0x2FFFE, &[0x01, 0x34]);
    machine.state.pc = 0xFFFE;
    let after = machine.done();
    assert_eq!((after.register(CW), after.state.pc), (0x1234, 1));
}

#[test]
fn the_mode_decides_what_bytes_mean() {
    // 40 is MOV B,B here and INC AW natively; ED FD is RETEM here and IN AW,DW natively
    assert_eq!(card(&[0x40]).done().register(AW), 0);
    assert_eq!(bench(&[0x40]).done().register(AW), 1);
    let native = bench(&[0xED, 0xFD]).tape(&[1, 2]).done();
    assert_eq!((native.state.pc, native.register(AW)), (1, 0x0201));
    assert_eq!(card(&[0x63]).done().register(BW), 0);
    assert_eq!(bench(&[0x63]).refused(), 3);
}
