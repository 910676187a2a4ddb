//! Prefixes, address forms and segment choice.

use crate::bench::{bench, Bench, CODE, STACK, TARGET};
use second::state::*;

const POINTERS: [(usize, u16); 4] = [(BW, 0x1000), (BP, 0x2000), (IX, 0x0300), (IY, 0x0040)];

fn with_pointers(code: &[u8]) -> Bench {
    POINTERS
        .iter()
        .fold(bench(code), |machine, &(register, word)| {
            machine.with(register, word)
        })
}

#[test]
fn the_eight_address_forms() {
    // LDEA AW with each form and displacement
    let sums = [
        0x1300, 0x1040, 0x2300, 0x2040, 0x0300, 0x0040, 0x2000, 0x1000,
    ];
    for (form, sum) in sums.into_iter().enumerate() {
        let form = form as u8;
        if form != 6 {
            assert_eq!(with_pointers(&[0x8D, form]).done().register(AW), sum);
        }
        let after = with_pointers(&[0x8D, 0x40 | form, 0xFF]).done();
        assert_eq!((after.register(AW), after.state.pc), (sum - 1, 3));
        let after = with_pointers(&[0x8D, 0x80 | form, 0x34, 0x12]).done();
        assert_eq!((after.register(AW), after.state.pc), (sum + 0x1234, 4));
    }
    let after = with_pointers(&[0x8D, 0x06, 0x34, 0x12]).done();
    assert_eq!((after.register(AW), after.state.pc), (0x1234, 4));
}

#[test]
fn sums_of_registers_wrap() {
    let after = bench(&[0x8D, 0x80, 0x03, 0x80])
        .with(BW, 0xFFFF)
        .with(IX, 0x8001)
        .done();
    assert_eq!(after.register(AW), 0x0003);
}

#[test]
fn forms_with_bp_use_the_stack_segment() {
    for (form, expected) in [(0, 1), (1, 1), (2, 2), (3, 2), (4, 1), (5, 1), (7, 1)] {
        let after = bench(&[0x8A, form])
            .bytes(0, &[1])
            .bytes(STACK, &[2])
            .done();
        assert_eq!(after.register(AW), expected, "form {form}");
    }
    let by_bp = bench(&[0x8A, 0x46, 0x00]).bytes(STACK, &[2]).done();
    assert_eq!(by_bp.register(AW), 2);
    let direct = bench(&[0x8A, 0x06, 0x00, 0x00]).bytes(STACK, &[2]).done();
    assert_eq!(direct.register(AW), 0);
}

#[test]
fn segment_prefixes_replace_the_usual_segment() {
    for (prefix, address) in [(0x26, TARGET), (0x2E, CODE + 8), (0x36, STACK), (0x3E, 0)] {
        let offset = (address & 15) as u8;
        let direct = bench(&[prefix, 0xA0, offset, 0])
            .bytes(address, &[0x77])
            .done();
        assert_eq!(direct.register(AW), 0x77);
        let based = bench(&[prefix, 0x8A, 0x46, offset])
            .bytes(address, &[0x77])
            .done();
        assert_eq!(based.register(AW), 0x77);
        let translated = bench(&[prefix, 0xD7])
            .with(AW, u16::from(offset))
            .bytes(address, &[0x77])
            .done();
        assert_eq!(translated.register(AW), 0x77);
    }
}

#[test]
fn of_two_segment_prefixes_the_last_counts() {
    let after = bench(&[0x26, 0x36, 0xA0, 0, 0])
        .bytes(TARGET, &[1])
        .bytes(STACK, &[2])
        .done();
    assert_eq!(after.register(AW), 2);
}

#[test]
fn three_prefixes_are_taken_and_a_fourth_is_refused() {
    for prefix in [0x26, 0x2E, 0x36, 0x3E, 0x64, 0x65, 0xF0, 0xF2, 0xF3] {
        let after = bench(&[prefix, prefix, prefix, 0x40]).done();
        assert_eq!((after.register(AW), after.state.pc), (1, 4));
        assert_eq!(bench(&[prefix, prefix, prefix, prefix, 0x40]).refused(), 4);
        assert_eq!(bench(&[prefix, prefix, prefix, 0xF1]).refused(), 3);
        assert_eq!(bench(&[prefix, 0x26, 0xF0, 0xF3, 0xF1]).refused(), 4);
    }
}

#[test]
fn the_longest_instruction_has_nine_bytes() {
    let code = [0x26, 0xF0, 0xF3, 0x81, 0x86, 0x00, 0x01, 0x34, 0x12];
    let mut machine = bench(&code);
    assert_eq!(machine.step(), Ok(2));
    assert_eq!(machine.word_at(TARGET + 0x100), 0x1234);
    assert_eq!(machine.state.pc, 9);
}

#[test]
fn instruction_bytes_wrap_at_the_segment_end() {
    let mut machine = bench(&[0x12]).bytes(CODE + 0xFFFE, &[0xB8, 0x34]);
    machine.state.pc = 0xFFFE;
    let after = machine.done();
    assert_eq!((after.register(AW), after.state.pc), (0x1234, 1));
}
