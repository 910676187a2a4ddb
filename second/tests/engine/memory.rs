//! RAM, ROM, empty addresses and their edges.

use crate::bench::bench;
use second::state::*;

#[test]
fn empty_addresses_read_ff_and_drop_writes() {
    // MOV AW,[0] and MOV [0],AW at 5000:0000, past RAM
    let mut machine = bench(&[0xA1, 0, 0, 0xA3, 0, 0]).segment(DS0, 0x5000);
    let ram = machine.ram.clone();
    assert_eq!(machine.step(), Ok(1));
    assert_eq!(machine.register(AW), 0xFFFF);
    assert_eq!(machine.step(), Ok(1));
    assert_eq!(machine.ram, ram);
}

#[test]
fn rom_ends_at_the_top_and_drops_writes() {
    let mut machine = bench(&[0xA1, 0x0E, 0, 0xA3, 0x0E, 0]).segment(DS0, 0xFFFF);
    machine.rom = vec![0x11, 0x22, 0x33];
    assert_eq!(machine.step(), Ok(1));
    assert_eq!(machine.register(AW), 0x3322);
    machine.state.general[AW] = 0;
    assert_eq!(machine.step(), Ok(1));
    assert_eq!(machine.rom, [0x11, 0x22, 0x33]);
}

#[test]
fn a_word_can_straddle_the_last_byte_of_ram() {
    let mut machine = bench(&[0xA1, 0xFF, 0xFF, 0xA3, 0xFF, 0xFF]).segment(DS0, 0x2000);
    machine.ram[0x2FFFF] = 0x12;
    machine.ram[0x20000] = 0xA1;
    machine.step().expect("MOV is in");
    // the second byte wraps to 2000:0000, where the code lies
    assert_eq!(machine.register(AW), 0xA112);
    let mut machine = bench(&[0xA3, 0x0F, 0x00])
        .segment(DS0, 0x2FFF)
        .with(AW, 0x5566);
    assert_eq!(machine.step(), Ok(2));
    assert_eq!(machine.ram[0x2FFFF], 0x66);
}

#[test]
fn code_runs_from_rom_into_ram() {
    // MOV AW,imm16 at FFFFE: two bytes in ROM, the last at address 0
    let mut machine = bench(&[]).bytes(0, &[0x56]).segment(PS, 0xFFFF);
    machine.rom = vec![0xB8, 0x34];
    machine.state.pc = 0x0E;
    let after = machine.done();
    assert_eq!((after.register(AW), after.state.pc), (0x5634, 0x11));
}

#[test]
fn code_after_ram_reads_ff() {
    // B8 at the last byte of RAM, FFFF behind it
    let mut machine = bench(&[]).bytes(0x2FFFF, &[0xB8]).segment(PS, 0x2FFF);
    machine.state.pc = 0x0F;
    assert_eq!(machine.done().register(AW), 0xFFFF);
}

#[test]
fn the_reset_vector_is_in_rom() {
    let mut machine = bench(&[]);
    machine.ram.clear();
    machine.state = State::after_reset();
    machine.rom = vec![0x40; 16];
    assert_eq!(machine.run(16).steps, 16);
    assert_eq!(machine.register(AW), 16);
    // then comes address 0, which is empty: FF FF names nothing
    assert_eq!(
        machine.run(1).refusal.map(|refusal| refusal.number()),
        Some(3)
    );
}

#[test]
fn the_whole_space_can_be_ram() {
    let mut machine = bench(&[]);
    machine.ram = vec![0; 1 << 20];
    machine.ram[0xFFFFF] = 0xA3;
    machine.state.segment[PS] = 0xFFFF;
    machine.state.segment[DS0] = 0xFFFF;
    machine.state.pc = 0x0F;
    machine.state.general[AW] = 0x1234;
    machine.ram[0] = 0x0F;
    // MOV [000F],AW writes FFFFF and address 0
    assert_eq!(machine.step(), Ok(2));
    assert_eq!((machine.ram[0xFFFFF], machine.ram[0]), (0x34, 0x12));
}
