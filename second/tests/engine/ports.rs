//! Ports, the tape and the records they leave.

use crate::bench::{bench, TARGET};
use second::state::*;

#[test]
fn byte_input() {
    let mut machine = bench(&[0xE4, 0x60]).with(AW, 0x1122).tape(&[0xFF, 0x33]);
    machine.state.tape_place = 1;
    assert_eq!(machine.step(), Ok(1));
    assert_eq!(machine.register(AW), 0x1133);
    assert_eq!(machine.state.tape_place, 2);
    // gap 1, key 60h x 4 + 0 = 180h, value 33h
    assert_eq!(machine.log[..4], [0x01, 0x80, 0x03, 0x33]);
    assert_eq!((machine.state.log_place, machine.state.count), (4, 0));
}

#[test]
fn word_input_takes_the_low_byte_first() {
    let mut machine = bench(&[0xED]).with(DW, 0x0011).tape(&[0x34, 0x12]);
    assert_eq!(machine.step(), Ok(2));
    assert_eq!(machine.register(AW), 0x1234);
    // key 11h x 4 + 2 = 46h, value 1234h = 24h groups: B4 24
    assert_eq!(machine.log[..4], [0x01, 0x46, 0xB4, 0x24]);
}

#[test]
fn output_of_bytes_and_words() {
    let mut machine = bench(&[0xEE]).with(DW, 0xFFFF).with(AW, 0x80);
    assert_eq!(machine.step(), Ok(1));
    // key 3FFFDh = FD FF 0F
    assert_eq!(machine.log[..6], [0x01, 0xFD, 0xFF, 0x0F, 0x80, 0x01]);
    let mut machine = bench(&[0xE7, 0x02]).with(AW, 0xFFFF);
    assert_eq!(machine.step(), Ok(1));
    assert_eq!(machine.log[..5], [0x01, 0x0B, 0xFF, 0xFF, 0x03]);
}

#[test]
fn the_gap_counts_finished_steps() {
    let mut machine = bench(&[0x90, 0x90, 0xE6, 0x00, 0xE6, 0x00]);
    assert_eq!(machine.run(4).steps, 4);
    assert_eq!(machine.log[..6], [0x03, 0x01, 0x00, 0x01, 0x01, 0x00]);
    assert_eq!(machine.state.count, 0);
}

#[test]
fn gap_and_count_stop_at_the_new_ceiling() {
    // the count before, then the gap's bytes and the count after a step without a record
    let cases: [(u32, &[u8], u32); 5] = [
        ((1 << 21) - 2, &[0xFF, 0xFF, 0x7F], (1 << 21) - 1),
        ((1 << 21) - 1, &[0x80, 0x80, 0x80, 0x01], 1 << 21),
        ((1 << 28) - 1, &[0x80, 0x80, 0x80, 0x80, 0x01], 1 << 28),
        (
            4_294_967_294,
            &[0xFF, 0xFF, 0xFF, 0xFF, 0x0F],
            4_294_967_295,
        ),
        (
            4_294_967_295,
            &[0xFF, 0xFF, 0xFF, 0xFF, 0x0F],
            4_294_967_295,
        ),
    ];
    for (count, gap, later) in cases {
        let mut machine = bench(&[0xE6, 0x00]);
        machine.state.count = count;
        let after = machine.done();
        assert_eq!(after.log[..gap.len()], *gap);
        assert_eq!(after.log[gap.len()..][..2], [0x01, 0x00]);
        assert_eq!(after.state.log_place as usize, gap.len() + 2);
        assert_eq!(after.state.count, 0);
        let mut machine = bench(&[0x90]);
        machine.state.count = count;
        assert_eq!(machine.done().state.count, later);
    }
}

#[test]
fn a_long_gap_needs_its_five_bytes_of_room() {
    let machine = |length| {
        let mut machine = bench(&[0xE6, 0x00]).log_length(length);
        machine.state.count = 4_294_967_295;
        machine
    };
    assert_eq!(machine(6).refused(), 6);
    assert!(machine(7).step().is_ok());
}

#[test]
fn block_input_stores_and_records() {
    let mut machine = bench(&[0xF3, 0x6D])
        .with(CW, 2)
        .with(DW, 0x10)
        .with(IY, 0x101)
        .tape(&[1, 2, 3, 4]);
    assert_eq!(machine.step(), Ok(3));
    assert_eq!(machine.word_at(TARGET + 0x101), 0x0201);
    assert_eq!((machine.register(IY), machine.register(CW)), (0x103, 1));
    assert_eq!(machine.state.pc, 0);
    assert_eq!(machine.step(), Ok(3));
    assert_eq!(machine.word_at(TARGET + 0x103), 0x0403);
    assert_eq!(machine.state.pc, 2);
    assert_eq!(
        machine.log[..8],
        [0x01, 0x42, 0x81, 0x04, 0x01, 0x42, 0x83, 0x08]
    );
}

#[test]
fn block_output_reads_ds0_or_the_prefix() {
    let mut machine = bench(&[0x6E]).with(DW, 1).bytes(0, &[0x2A]).flags(DIR);
    assert_eq!(machine.step(), Ok(2));
    assert_eq!(machine.log[..3], [0x01, 0x05, 0x2A]);
    assert_eq!(machine.register(IX), 0xFFFF);
    let after = bench(&[0x26, 0x6E]).bytes(TARGET, &[0x2B]).done();
    assert_eq!(after.log[..3], [0x01, 0x01, 0x2B]);
}

#[test]
fn a_short_tape_is_refused_before_a_full_log() {
    assert_eq!(bench(&[0xE4, 0x00]).log_length(0).refused(), 5);
    assert_eq!(bench(&[0xE5, 0x00]).tape(&[1]).refused(), 5);
    assert_eq!(bench(&[0xE4, 0x00]).tape(&[1]).log_length(2).refused(), 6);
}

#[test]
fn the_room_depends_on_the_record() {
    // gap 1, key 1, value 7F: three bytes; value 80: four
    for (value, length, refused) in [
        (0x7F, 3, false),
        (0x7F, 2, true),
        (0x80, 3, true),
        (0x80, 4, false),
    ] {
        let mut machine = bench(&[0xE6, 0x00]).with(AW, value).log_length(length);
        let before = machine.clone();
        let outcome = machine.step();
        assert_eq!(outcome.is_err(), refused);
        if refused {
            assert_eq!(machine, before);
        } else {
            assert_eq!(machine.state.log_place as usize, length);
        }
    }
}

#[test]
fn a_refused_block_element_writes_nothing() {
    let machine = bench(&[0xF3, 0x6C]).with(CW, 1).log_length(0);
    assert_eq!(machine.clone().refused(), 5);
    assert_eq!(machine.tape(&[9]).refused(), 6);
    let machine = bench(&[0xF3, 0x6F]).with(CW, 1).log_length(2);
    assert_eq!(machine.refused(), 6);
}
