//! Branches, calls and returns.

use crate::bench::{bench, STACK};
use second::state::*;

#[test]
fn conditions_of_the_sixteen_branches() {
    // opcode, flags that take it, flags that do not
    let table: [(u8, &[u16], &[u16]); 16] = [
        (0x70, &[V], &[0, S | CY]),
        (0x71, &[0, S | CY], &[V]),
        (0x72, &[CY], &[0, Z | V]),
        (0x73, &[0, Z | V], &[CY]),
        (0x74, &[Z], &[0, CY]),
        (0x75, &[0, CY], &[Z]),
        (0x76, &[CY, Z, CY | Z], &[0, S | V]),
        (0x77, &[0, S | V], &[CY, Z, CY | Z]),
        (0x78, &[S], &[0, V]),
        (0x79, &[0, V], &[S]),
        (0x7A, &[P], &[0, Z]),
        (0x7B, &[0, Z], &[P]),
        (0x7C, &[S, V], &[0, S | V, Z]),
        (0x7D, &[0, S | V, Z], &[S, V]),
        (0x7E, &[Z, S, V, S | V | Z], &[0, S | V]),
        (0x7F, &[0, S | V], &[Z, S, V, S | V | Z]),
    ];
    for (opcode, taken, passed) in table {
        for &flags in taken {
            let after = bench(&[opcode, 0x10]).flags(flags).done();
            assert_eq!(after.state.pc, 0x12, "{opcode:02X} with {flags:04X}");
        }
        for &flags in passed {
            let after = bench(&[opcode, 0x10]).flags(flags).done();
            assert_eq!(after.state.pc, 0x02, "{opcode:02X} with {flags:04X}");
        }
    }
}

#[test]
fn distances_wrap() {
    assert_eq!(bench(&[0xEB, 0x80]).done().state.pc, 0xFF82);
    assert_eq!(bench(&[0xE9, 0x00, 0x80]).done().state.pc, 0x8003);
}

#[test]
fn counted_branches() {
    // opcode, CW before, Z, taken
    for (opcode, cw, flags, taken) in [
        (0xE2, 2, 0, true),
        (0xE2, 1, 0, false),
        (0xE2, 0, 0, true),
        (0xE1, 2, Z, true),
        (0xE1, 2, 0, false),
        (0xE1, 1, Z, false),
        (0xE0, 2, 0, true),
        (0xE0, 2, Z, false),
    ] {
        let after = bench(&[opcode, 0x10]).with(CW, cw).flags(flags).done();
        assert_eq!(after.state.pc, if taken { 0x12 } else { 2 });
        assert_eq!(after.register(CW), cw.wrapping_sub(1));
        assert_eq!(after.state.psw, 0xF002 | flags);
    }
    assert_eq!(bench(&[0xE3, 0x10]).done().state.pc, 0x12);
    let after = bench(&[0xE3, 0x10]).with(CW, 1).done();
    assert_eq!((after.state.pc, after.register(CW)), (2, 1));
}

#[test]
fn far_branches() {
    let after = bench(&[0xEA, 0x34, 0x12, 0x78, 0x56]).done();
    assert_eq!((after.state.pc, after.state.segment[PS]), (0x1234, 0x5678));
    let mut machine = bench(&[0xFF, 0x2F]).words(0, &[0x1234, 0x5678]);
    assert_eq!(machine.step(), Ok(2));
    assert_eq!(
        (machine.state.pc, machine.state.segment[PS]),
        (0x1234, 0x5678)
    );
}

#[test]
fn indirect_branches() {
    assert_eq!(bench(&[0xFF, 0xE4]).with(SP, 0x777).done().state.pc, 0x777);
    let mut machine = bench(&[0xFF, 0x26, 0x01, 0x00]).words(1, &[0x4321]);
    assert_eq!(machine.step(), Ok(2));
    assert_eq!(machine.state.pc, 0x4321);
}

#[test]
fn near_calls_push_the_next_pc() {
    let mut machine = bench(&[0xE8, 0xFD, 0xFF]).with(SP, 0x100);
    assert_eq!(machine.step(), Ok(1));
    assert_eq!((machine.state.pc, machine.register(SP)), (0, 0xFE));
    assert_eq!(machine.word_at(STACK + 0xFE), 3);
    let after = bench(&[0xFF, 0xD3]).with(SP, 0x100).with(BW, 0x55).done();
    assert_eq!((after.state.pc, after.word_at(STACK + 0xFE)), (0x55, 2));
}

#[test]
fn a_call_through_sp_takes_the_lowered_sp() {
    let after = bench(&[0xFF, 0xD4]).with(SP, 0x100).done();
    assert_eq!((after.state.pc, after.register(SP)), (0xFE, 0xFE));
}

#[test]
fn a_call_through_memory_reads_before_it_pushes() {
    // the pointer lies where the return address goes
    let mut machine = bench(&[0x36, 0xFF, 0x16, 0xFE, 0x00])
        .with(SP, 0x100)
        .words(STACK + 0xFE, &[0x4444]);
    assert_eq!(machine.step(), Ok(2));
    assert_eq!(
        (machine.state.pc, machine.word_at(STACK + 0xFE)),
        (0x4444, 5)
    );
}

#[test]
fn far_calls_push_ps_then_pc() {
    let mut machine = bench(&[0x9A, 0x34, 0x12, 0x78, 0x56]).with(SP, 0x101);
    assert_eq!(machine.step(), Ok(4));
    assert_eq!(
        (machine.state.pc, machine.state.segment[PS]),
        (0x1234, 0x5678)
    );
    assert_eq!(machine.word_at(STACK + 0xFF), 0x2000);
    assert_eq!(machine.word_at(STACK + 0xFD), 5);
    let mut machine = bench(&[0xFF, 0x1F])
        .with(SP, 0x100)
        .words(0, &[0x1234, 0x5678]);
    assert_eq!(machine.step(), Ok(4));
    assert_eq!(
        (machine.state.pc, machine.state.segment[PS]),
        (0x1234, 0x5678)
    );
    assert_eq!(machine.word_at(STACK + 0xFC), 2);
}

#[test]
fn returns() {
    let stack = [0x1111, 0x2222, 0x0000];
    let machine = |code: &[u8]| bench(code).with(SP, 0x100).words(STACK + 0x100, &stack);
    let after = machine(&[0xC3]).done();
    assert_eq!((after.state.pc, after.register(SP)), (0x1111, 0x102));
    let after = machine(&[0xC2, 0xFF, 0xFF]).done();
    assert_eq!((after.state.pc, after.register(SP)), (0x1111, 0x101));
    let after = machine(&[0xCB]).done();
    assert_eq!((after.state.pc, after.state.segment[PS]), (0x1111, 0x2222));
    assert_eq!(after.register(SP), 0x104);
    let after = machine(&[0xCA, 0x04, 0x00]).done();
    assert_eq!(
        (after.state.segment[PS], after.register(SP)),
        (0x2222, 0x108)
    );
    let mut machine = machine(&[0xCF]);
    assert_eq!(machine.step(), Ok(3));
    assert_eq!(
        (machine.state.pc, machine.state.segment[PS]),
        (0x1111, 0x2222)
    );
    assert_eq!((machine.state.psw, machine.register(SP)), (0xF002, 0x106));
}
