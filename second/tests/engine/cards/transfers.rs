//! Moves, loads, stores, ports and the halt.

use super::card;
use second::state::*;

#[test]
fn moves_between_all_registers() {
    // B C D E H L, none for the byte at HL, A
    let native = [5, 1, 6, 2, 7, 3, 6, 0];
    for to in (0..8).filter(|&to| to != 6) {
        for from in (0..8).filter(|&from| from != 6) {
            let machine = card(&[0x40 | (to as u8) << 3 | from as u8])
                .with(AW, 0x1101)
                .with(CW, 0x2202)
                .with(DW, 0x3303)
                .with(BW, 0x4404)
                .flags(CY | Z);
            let mut wanted = machine.state.clone();
            let byte = wanted.byte_register(native[from]);
            wanted.set_byte_register(native[to], byte);
            let after = machine.done();
            assert_eq!(after.state.general, wanted.general, "{to} {from}");
            assert_eq!(after.state.psw, wanted.psw);
        }
    }
}

#[test]
fn moves_with_memory() {
    // MOV M,E and MOV D,M; MOV H,M takes the address first
    let mut machine = card(&[0x73]).with(DW, 0x0099).with(BW, 0x500);
    assert_eq!((machine.step(), machine.ram[0x500]), (Ok(1), 0x99));
    let machine = card(&[0x56]).with(BW, 0x500).bytes(0x500, &[0x77]);
    assert_eq!(machine.done().register(DW), 0x7700);
    let machine = card(&[0x66]).with(BW, 0x500).bytes(0x500, &[0x77]);
    assert_eq!(machine.done().register(BW), 0x7700);
    // MVI M and MVI B
    let mut machine = card(&[0x36, 0x5A]).with(BW, 0x500);
    assert_eq!((machine.step(), machine.ram[0x500]), (Ok(1), 0x5A));
    let after = card(&[0x06, 0x5A]).done();
    assert_eq!((after.register(CW), after.state.pc), (0x5A00, 2));
}

#[test]
fn loads_of_pairs() {
    for (code, register) in [(0x01, CW), (0x11, DW), (0x21, BW), (0x31, BP)] {
        let after = card(&[code, 0x34, 0x12]).done();
        assert_eq!((after.register(register), after.state.pc), (0x1234, 3));
    }
}

#[test]
fn a_by_a_pair_or_an_address() {
    for (code, register) in [(0x02, CW), (0x12, DW)] {
        let mut machine = card(&[code]).with(register, 0x501).with(AW, 0x11AA);
        assert_eq!((machine.step(), machine.ram[0x501]), (Ok(1), 0xAA));
    }
    for (code, register) in [(0x0A, CW), (0x1A, DW)] {
        let machine = card(&[code]).with(register, 0x501).with(AW, 0x1100);
        let after = machine.bytes(0x501, &[0xBB]).done();
        assert_eq!(after.register(AW), 0x11BB);
    }
    let mut machine = card(&[0x32, 0x01, 0x05]).with(AW, 0xCC);
    assert_eq!((machine.step(), machine.ram[0x501]), (Ok(1), 0xCC));
    let machine = card(&[0x3A, 0x01, 0x05]).bytes(0x501, &[0xDD]);
    assert_eq!(machine.done().register(AW), 0xDD);
}

#[test]
fn hl_by_an_address() {
    // SHLD and LHLD are one word access: even 1, odd 2; a word at FFFF goes on at 0000
    for (low, cycles) in [(0x00, 1), (0x01, 2)] {
        let mut machine = card(&[0x22, low, 0x05]).with(BW, 0x1234);
        assert_eq!(machine.step(), Ok(cycles));
        assert_eq!(machine.word_at(0x500 + usize::from(low)), 0x1234);
        let mut machine = card(&[0x2A, low, 0x05]).bytes(0x500 + usize::from(low), &[0x78, 0x56]);
        assert_eq!((machine.step(), machine.register(BW)), (Ok(cycles), 0x5678));
    }
    let mut machine = card(&[0x22, 0xFF, 0xFF])
        .segment(DS0, 0x1000)
        .with(BW, 0x1234);
    assert_eq!(machine.step(), Ok(2));
    assert_eq!((machine.ram[0x1FFFF], machine.ram[0x10000]), (0x34, 0x12));
}

#[test]
fn exchanges_and_copies_of_pairs() {
    let after = card(&[0xEB]).with(DW, 0x1111).with(BW, 0x2222).done();
    assert_eq!((after.register(DW), after.register(BW)), (0x2222, 0x1111));
    let after = card(&[0xF9]).with(BW, 0x506C).with(SP, 0x77).done();
    assert_eq!((after.register(BP), after.register(SP)), (0x506C, 0x77));
}

#[test]
fn ports_have_the_number_of_the_second_byte() {
    let mut machine = card(&[0xD3, 0x05]).with(AW, 0x1141).with(DW, 0xFFFF);
    assert_eq!(machine.step(), Ok(1));
    // gap 1, key 5 x 4 + 1, value 41
    assert_eq!(machine.log[..3], [0x01, 0x15, 0x41]);
    let mut machine = card(&[0xDB, 0x1F]).with(AW, 0x1100).tape(&[0x42]);
    assert_eq!((machine.step(), machine.register(AW)), (Ok(1), 0x1142));
    assert_eq!(machine.log[..3], [0x01, 0x7C, 0x42]);
    assert_eq!((machine.state.tape_place, machine.state.count), (1, 0));
    assert_eq!(card(&[0xDB, 0x1F]).refused(), 5);
    assert_eq!(card(&[0xDB, 0x1F]).tape(&[1]).log_length(2).refused(), 6);
    assert_eq!(card(&[0xD3, 0x1F]).log_length(2).refused(), 6);
}

#[test]
fn halt_and_the_interrupt_flag() {
    let mut machine = card(&[0x76]).done();
    assert!(machine.state.halted);
    assert_eq!(machine.state.pc, 1);
    assert_eq!(machine.clone().refused(), 8);
    machine.state.halted = false;
    assert!(card(&[0xFB]).done().has(IE));
    assert!(card(&[0xF3]).flags(IE).done().lacks(IE));
}

#[test]
fn dropped_bytes_are_counted() {
    // 30000 to 3FFFF is empty here
    for (code, dropped) in [(0x70, 1), (0xE5, 2), (0x34, 1), (0xE3, 2), (0x7E, 0)] {
        let mut machine = card(&[code]).segment(DS0, 0x3000).with(BP, 0x100);
        assert_eq!(
            machine.tally().map(|tally| tally.dropped_bytes),
            Ok(dropped)
        );
    }
}
