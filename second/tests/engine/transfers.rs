//! Moves, exchanges, pointers and conversions.

use crate::bench::bench;
use second::state::*;

#[test]
fn byte_registers_are_halves() {
    let mut machine = bench(&[0xB7, 0x12, 0xB3, 0x34]);
    machine.run(2);
    assert_eq!(machine.register(BW), 0x1234);
    // MOV AH,BL in both directions of the opcode
    for code in [[0x8A, 0xE3], [0x88, 0xDC]] {
        let after = bench(&code).with(BW, 0x1234).done();
        assert_eq!(after.register(AW), 0x3400);
    }
}

#[test]
fn moves_touch_memory_once() {
    assert_eq!(bench(&[0x89, 0x06, 0x01, 0x00]).cycles(), 2);
    assert_eq!(bench(&[0x8B, 0x06, 0x02, 0x00]).cycles(), 1);
    assert_eq!(bench(&[0xA3, 0x01, 0x00]).cycles(), 2);
    assert_eq!(bench(&[0xA0, 0x01, 0x00]).cycles(), 1);
    assert_eq!(bench(&[0xC7, 0x06, 0x01, 0x00, 0x34, 0x12]).cycles(), 2);
    assert_eq!(bench(&[0x8D, 0x07]).cycles(), 0);
}

#[test]
fn immediates_go_to_memory_and_registers() {
    let after = bench(&[0xC7, 0x06, 0x01, 0x00, 0x34, 0x12]).done();
    assert_eq!((after.word_at(1), after.state.pc), (0x1234, 6));
    let after = bench(&[0xC6, 0xC4, 0x99]).done();
    assert_eq!((after.register(AW), after.state.pc), (0x9900, 3));
}

#[test]
fn segment_moves() {
    let after = bench(&[0x8C, 0xC8]).done();
    assert_eq!(after.register(AW), 0x2000);
    let after = bench(&[0x8E, 0xD0]).with(AW, 0x77).done();
    assert_eq!(after.state.segment[SS], 0x77);
    let mut machine = bench(&[0x8E, 0x1F]).words(0, &[0x88]);
    assert_eq!(machine.step(), Ok(1));
    assert_eq!(machine.state.segment[DS0], 0x88);
}

#[test]
fn pointer_loads_use_one_address() {
    // MOV DS0,IX,[IX]: the second word comes from the old IX and the old DS0
    let mut machine = bench(&[0xC5, 0x34])
        .with(IX, 0x101)
        .words(0x101, &[0x5555, 0x6666]);
    assert_eq!(machine.step(), Ok(4));
    assert_eq!(
        (machine.register(IX), machine.state.segment[DS0]),
        (0x5555, 0x6666)
    );
    let after = bench(&[0xC4, 0x1F]).words(0, &[0x5555, 0x6666]).done();
    assert_eq!(
        (after.register(BW), after.state.segment[DS1]),
        (0x5555, 0x6666)
    );
}

#[test]
fn a_pointer_wraps_in_its_segment() {
    let mut machine = bench(&[0xC4, 0x1E, 0xFF, 0xFF])
        .bytes(0xFFFF, &[0x11])
        .bytes(0, &[0x22, 0x33, 0x44]);
    assert_eq!(machine.step(), Ok(4));
    assert_eq!(
        (machine.register(BW), machine.state.segment[DS1]),
        (0x2211, 0x4433)
    );
}

#[test]
fn exchanges() {
    let after = bench(&[0x97]).with(AW, 1).with(IY, 2).done();
    assert_eq!((after.register(AW), after.register(IY)), (2, 1));
    let after = bench(&[0x86, 0xC4]).with(AW, 0x1234).done();
    assert_eq!(after.register(AW), 0x3412);
    let mut machine = bench(&[0x87, 0x06, 0x01, 0x00]).with(AW, 1).words(1, &[2]);
    assert_eq!(machine.step(), Ok(4));
    assert_eq!((machine.register(AW), machine.word_at(1)), (2, 1));
}

#[test]
fn an_exchange_addresses_with_the_old_register() {
    let after = bench(&[0x87, 0x1F])
        .with(BW, 0x100)
        .words(0x100, &[0x5555])
        .done();
    assert_eq!((after.register(BW), after.word_at(0x100)), (0x5555, 0x100));
}

#[test]
fn translation_wraps() {
    let mut machine = bench(&[0xD7])
        .with(BW, 0xFFFF)
        .with(AW, 0x1203)
        .bytes(2, &[0x44]);
    assert_eq!(machine.step(), Ok(1));
    assert_eq!(machine.register(AW), 0x1244);
}

#[test]
fn status_byte_moves() {
    let after = bench(&[0x9F]).flags(CY | S | V).done();
    assert_eq!(after.register(AW), 0x8300);
    let after = bench(&[0x9E]).with(AW, 0xFF00).flags(V | IE).done();
    assert_eq!(after.state.psw, 0xF002 | V | IE | S | Z | AC | P | CY);
    let after = bench(&[0x9E]).flags(V | S | Z | AC | P | CY | DIR).done();
    assert_eq!(after.state.psw, 0xF002 | V | DIR);
}

#[test]
fn sign_widening() {
    assert_eq!(bench(&[0x98]).with(AW, 0x1180).done().register(AW), 0xFF80);
    assert_eq!(bench(&[0x98]).with(AW, 0x117F).done().register(AW), 0x007F);
    assert_eq!(bench(&[0x99]).with(AW, 0x8000).done().register(DW), 0xFFFF);
    assert_eq!(
        bench(&[0x99])
            .with(AW, 0x7FFF)
            .with(DW, 9)
            .done()
            .register(DW),
        0
    );
}

#[test]
fn flag_instructions() {
    for (code, before, after) in [
        (0xF5, 0, CY),
        (0xF5, CY, 0),
        (0xF8, CY, 0),
        (0xF9, 0, CY),
        (0xFA, IE, 0),
        (0xFB, 0, IE),
        (0xFC, DIR, 0),
        (0xFD, 0, DIR),
    ] {
        assert_eq!(
            bench(&[code]).flags(before).done().state.psw,
            0xF002 | after
        );
    }
}
