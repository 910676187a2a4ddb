//! Bytes that are written where no RAM is.

use crate::bench::{bench, Bench};
use second::machine::Tally;
use second::refusal::Refusal;
use second::state::*;

/// A segment where nothing is: RAM ends at 30000.
const NOTHING: u16 = 0x5000;

/// MOV [offset],AL and MOV [offset],AW.
fn store(word: bool, offset: u16) -> Vec<u8> {
    let [low, high] = offset.to_le_bytes();
    vec![0xA2 | u8::from(word), low, high]
}

/// Bus cycles and dropped bytes of one step.
fn tally(mut machine: Bench) -> (u32, u32) {
    counted(machine.tally())
}

fn counted(outcome: Result<Tally, Refusal>) -> (u32, u32) {
    let tally = outcome.expect("the call is accepted");
    (tally.bus_cycles, tally.dropped_bytes)
}

#[test]
fn what_lands_in_ram_is_not_dropped() {
    for (code, cycles) in [(store(false, 0x40), 1), (store(true, 0x41), 2)] {
        assert_eq!(tally(bench(&code)), (cycles, 0));
    }
    // the last byte and the last word of RAM
    assert_eq!(
        tally(bench(&store(false, 0x0F)).segment(DS0, 0x2FFF)),
        (1, 0)
    );
    assert_eq!(
        tally(bench(&store(true, 0x0E)).segment(DS0, 0x2FFF)),
        (1, 0)
    );
}

#[test]
fn stores_into_rom_are_dropped() {
    for (word, offset, cycles, dropped) in
        [(false, 0x0E, 1, 1), (true, 0x0E, 1, 2), (true, 0x0D, 2, 2)]
    {
        let mut machine = bench(&store(word, offset)).segment(DS0, 0xFFFF);
        machine.rom = vec![0x11, 0x22, 0x33];
        assert_eq!(counted(machine.tally()), (cycles, dropped));
        assert_eq!(machine.rom, [0x11, 0x22, 0x33]);
    }
}

#[test]
fn stores_where_nothing_is_are_dropped() {
    for (word, offset, cycles, dropped) in [(false, 0, 1, 1), (true, 0, 1, 2), (true, 1, 2, 2)] {
        let machine = bench(&store(word, offset)).segment(DS0, NOTHING);
        assert_eq!(tally(machine), (cycles, dropped));
    }
}

#[test]
fn reads_drop_nothing() {
    for code in [&[0xA1, 0, 0][..], &[0x39, 0x06, 0, 0], &[0x85, 0x06, 0, 0]] {
        assert_eq!(tally(bench(code).segment(DS0, NOTHING)), (1, 0));
    }
    // TEST1 of bit 0
    let code = [0x0F, 0x18, 0x06, 0, 0, 0];
    assert_eq!(tally(bench(&code).segment(DS0, NOTHING)), (1, 0));
}

#[test]
fn a_word_across_the_end_of_ram_loses_its_high_byte() {
    let mut machine = bench(&store(true, 0x0F))
        .segment(DS0, 0x2FFF)
        .with(AW, 0x5566);
    assert_eq!(counted(machine.tally()), (2, 1));
    assert_eq!(machine.ram[0x2FFFF], 0x66);
}

#[test]
fn a_word_across_the_last_address_loses_its_low_byte() {
    // FFFFF is empty or ROM, address 0 is RAM
    for rom in [vec![], vec![0x77]] {
        let mut machine = bench(&store(true, 0x0F))
            .segment(DS0, 0xFFFF)
            .with(AW, 0x5566);
        machine.rom = rom.clone();
        assert_eq!(counted(machine.tally()), (2, 1));
        assert_eq!((machine.ram[0], machine.rom), (0x55, rom));
    }
}

#[test]
fn a_word_at_the_last_offset_may_lose_either_byte() {
    // 2001:FFFF is 3000F, past RAM, and 2001:0000 lies in it
    let mut machine = bench(&store(true, 0xFFFF))
        .segment(DS0, 0x2001)
        .with(AW, 0x5566);
    assert_eq!(counted(machine.tally()), (2, 1));
    assert_eq!(machine.ram[0x20010], 0x55);
    // F800:FFFF is 07FFF in RAM, and F800:0000 is empty
    let mut machine = bench(&store(true, 0xFFFF))
        .segment(DS0, 0xF800)
        .with(AW, 0x5566);
    assert_eq!(counted(machine.tally()), (2, 1));
    assert_eq!(machine.ram[0x07FFF], 0x66);
}

#[test]
fn operands_that_are_read_and_written_drop_once() {
    for (code, cycles, dropped) in [
        // INC byte, NEG word, ADD word with a register, XCH word
        (&[0xFE, 0x06, 0, 0][..], 2, 1),
        (&[0xF7, 0x1E, 0, 0], 2, 2),
        (&[0x01, 0x06, 0, 0], 2, 2),
        (&[0x87, 0x06, 0, 0], 2, 2),
        // SHL word by CL, which is 0
        (&[0xD3, 0x26, 0, 0], 2, 2),
        // SET1 of a byte's bit 0
        (&[0x0F, 0x1C, 0x06, 0, 0, 0], 2, 1),
    ] {
        let machine = bench(code).segment(DS0, NOTHING);
        assert_eq!(tally(machine), (cycles, dropped), "{code:02X?}");
    }
}

#[test]
fn pushes_into_nothing() {
    for (code, cycles, dropped) in [
        // PUSH AW, PUSH R, CALL near and far
        (&[0x50][..], 1, 2),
        (&[0x60], 8, 16),
        (&[0xE8, 0, 0], 1, 2),
        (&[0x9A, 0, 0, 0, 0], 2, 4),
        // PREPARE of levels 0, 3 and 255
        (&[0xC8, 0, 0, 0], 1, 2),
        (&[0xC8, 0, 0, 3], 6, 8),
        (&[0xC8, 0, 0, 255], 510, 512),
        // BRK 3: two vector words and three pushes
        (&[0xCC], 5, 6),
    ] {
        let machine = bench(code).segment(SS, NOTHING);
        assert_eq!(tally(machine), (cycles, dropped), "{code:02X?}");
    }
}

#[test]
fn the_single_step_trap_adds_its_pushes() {
    assert_eq!(
        tally(bench(&[0x90]).segment(SS, NOTHING).flags(BRK)),
        (5, 6)
    );
    // the most that one step drops
    let machine = bench(&[0xC8, 0, 0, 255])
        .segment(SS, NOTHING)
        .with(SP, 1)
        .with(BP, 1)
        .flags(BRK);
    assert_eq!(tally(machine), (1_028, 518));
}

#[test]
fn block_elements_drop_one_by_one() {
    // REP STMW
    let mut machine = bench(&[0xF3, 0xAB]).segment(DS1, NOTHING).with(CW, 3);
    assert_eq!(counted(machine.tally()), (1, 2));
    let report = machine.run(2);
    assert_eq!(
        (report.tally.bus_cycles, report.tally.dropped_bytes),
        (2, 4)
    );
    // with CW 0 there is no element
    machine.state.pc = 0;
    assert_eq!(counted(machine.tally()), (0, 0));
    // INMB: the port's access, then the store
    let input = bench(&[0x6C]).segment(DS1, NOTHING).tape(&[9]);
    assert_eq!(tally(input), (2, 1));
}

#[test]
fn fields_and_decimal_strings() {
    // INS of 4 bits at bit 14 touches two words
    let machine = bench(&[0x0F, 0x31, 0xCA])
        .segment(DS1, NOTHING)
        .with(DW, 14)
        .with(CW, 3);
    assert_eq!(tally(machine), (4, 4));
    // ADD4S of four digits stores two bytes, CMP4S none
    for (second, dropped, cycles) in [(0x20, 2, 6), (0x26, 0, 4)] {
        let machine = bench(&[0x0F, second]).segment(DS1, NOTHING).with(CW, 4);
        assert_eq!(tally(machine), (cycles, dropped));
    }
}

#[test]
fn each_write_counts_anew() {
    // MOV [0],AL twice at the same place
    let code = store(false, 0).repeat(2);
    let report = bench(&code).segment(DS0, NOTHING).run(2);
    assert_eq!(report.tally.dropped_bytes, 2);
}

#[test]
fn ports_drop_nothing() {
    assert_eq!(tally(bench(&[0xE7, 0x60])), (1, 0));
    assert_eq!(tally(bench(&[0xE5, 0x60]).tape(&[1, 2])), (1, 0));
}

#[test]
fn a_stopped_run_reports_its_finished_steps() {
    // PUSH AW twice, then an input without a tape, an unknown byte, a fourth prefix
    for stop in [&[0xE4, 0][..], &[0xF1], &[0x26, 0x26, 0x26, 0x26]] {
        let code = [&[0x50, 0x50], stop].concat();
        let report = bench(&code).segment(SS, NOTHING).run(9);
        assert!(report.refusal.is_some());
        assert_eq!((report.steps, report.tally.dropped_bytes), (2, 4));
    }
    // INM whose element would be dropped, but which the tape refuses
    let report = bench(&[0x6C]).segment(DS1, NOTHING).run(9);
    assert_eq!((report.steps, report.tally), (0, Tally::default()));
}

#[test]
fn interrupts_report_their_pushes() {
    let mut machine = bench(&[]).segment(SS, NOTHING);
    assert_eq!(counted(machine.on(|m| m.interrupt(9, false))), (5, 6));
    // odd pushes at 30003, 30001 and 2FFFF, whose low byte lands
    let mut machine = bench(&[]).segment(SS, 0x2FFF).with(SP, 0x15);
    assert_eq!(counted(machine.on(|m| m.interrupt(9, false))), (8, 5));
    let mut machine = bench(&[]).with(SP, 0x100);
    assert_eq!(counted(machine.on(|m| m.interrupt(9, false))), (5, 0));
}
