//! Cases of the 8080 mode and of the ways into it and out of it.

use super::card_programs;
use super::control;
use super::draft::Draft;
use super::edges;
use super::encodings;
use super::random::Random;
use super::{any_case, data, draw, Family, WALK_PERIOD};
use crate::judge::case::Case;
use crate::state::{AW, BP, BRK, BW, CW, DS0, DW, MODE, SP, SS};

/// First bytes alone, then second bytes after ED.
const LENGTH_OF_WALK: u64 = 512;

/// Families of cases and how many of a hundred each gets among the others.
const FAMILIES: [(u32, Family); 12] = [
    (16, any_instruction),
    (14, arithmetic),
    (5, decimal_adjustment),
    (12, stack),
    (6, port),
    (14, change_of_mode),
    (6, interrupt),
    (5, bad_arguments),
    (5, native_under_the_permission),
    (5, at_an_edge),
    (1, reset),
    (11, card_programs::run),
];

/// The case of a number; it does not depend on how many are made.
pub fn case(seed: u64, number: u64) -> Case {
    let mut draft = Draft::new(Random::for_case(seed, number));
    match number % WALK_PERIOD {
        0 => {
            let place = seed.wrapping_mul(37).wrapping_add(number / WALK_PERIOD);
            let byte = place as u8;
            if place % LENGTH_OF_WALK < 256 {
                instruction(&mut draft, &[byte]);
            } else {
                instruction(&mut draft, &[0xED, byte]);
            }
        }
        _ => {
            let family = draw(&FAMILIES, &mut draft.random);
            family(&mut draft);
        }
    }
    draft.case
}

fn enter_8080_mode(draft: &mut Draft) {
    draft.case.state.psw &= !MODE;
    draft.case.state.may_write_mode = true;
}

/// Random bytes where the pairs, both stacks and the two bytes of an address point.
fn put_data(draft: &mut Draft, address: u16) {
    let state = draft.case.state.clone();
    let data = state.segment[DS0];
    for offset in [CW, DW, BW, BP].map(|code| state.general[code]) {
        draft.put_random(data, offset, 4);
    }
    draft.put_random(data, address, 4);
    draft.put_random(state.segment[SS], state.general[SP], 6);
    if draft.random.one_in(2) {
        draft.put_random(0, 0, 24);
    }
}

/// The bytes in the 8080 mode, with what two more bytes name.
fn instruction(draft: &mut Draft, bytes: &[u8]) {
    enter_8080_mode(draft);
    let address = draft.some_offset();
    put_data(draft, address);
    let vector = address as u8;
    draft.put_random(0, u16::from(vector) * 4, 4);
    let code = [bytes, &address.to_le_bytes()].concat();
    draft.put_code(&code);
}

fn any_instruction(draft: &mut Draft) {
    let first = draft.random.byte();
    instruction(draft, &[first]);
}

/// Sums, differences, logic and counts of bytes at their boundaries.
fn arithmetic(draft: &mut Draft) {
    for code in [AW, CW, DW, BW] {
        let bytes = [draft.random.some_byte(), draft.random.some_byte()];
        draft.case.state.general[code] = u16::from_le_bytes(bytes);
    }
    let first = match draft.random.below(8) {
        0..=3 => 0x80 | draft.random.byte() & 0x3F,
        4 | 5 => 0xC6 | draft.random.byte() & 0x38,
        6 => draft.random.pick(&[0x04, 0x05]) | draft.random.byte() & 0x38,
        _ => draft.random.pick(&[0x09, 0x07]) | draft.random.byte() & 0x30,
    };
    let right = draft.random.some_byte();
    instruction(draft, &[first, right]);
}

fn decimal_adjustment(draft: &mut Draft) {
    draft.case.state.general[AW] = draft.random.word();
    instruction(draft, &[0x27]);
}

/// Pushes, pops, calls and returns, with BP at the ends of its segment as often as not.
fn stack(draft: &mut Draft) {
    control::choose_stack_top(draft, BP);
    let first = match draft.random.below(6) {
        0 => draft.random.pick(&[0xC1, 0xC5]) | draft.random.byte() & 0x30,
        1 => draft.random.pick(&[0xF1, 0xF5, 0xE3, 0xF9, 0xE9, 0xEB]),
        2 => draft.random.pick(&[0xC9, 0xCD, 0xC3]),
        3 => 0xC7 | draft.random.byte() & 0x38,
        4 => 0xC0 | draft.random.byte() & 0x38,
        _ => draft.random.pick(&[0xC2, 0xC4]) | draft.random.byte() & 0x38,
    };
    instruction(draft, &[first]);
}

/// IN and OUT with the tape and the log at their ends.
fn port(draft: &mut Draft) {
    data::use_up_tape_and_log(draft);
    let code = [draft.random.pick(&[0xD3, 0xDB]), draft.random.some_byte()];
    instruction(draft, &code);
}

/// What changes the mode, or pops a PSW that would, with and without the single-step flag.
fn change_of_mode(draft: &mut Draft) {
    control::choose_stack_top(draft, SP);
    if draft.random.one_in(2) {
        draft.case.state.psw ^= BRK;
    }
    draft.put_random(0, 0, 8);
    let vector = draft.random.some_byte();
    let code = match draft.random.below(6) {
        0 => vec![0xED, 0xED, vector],
        1 => vec![0xED, 0xFD],
        2 => vec![0xED, draft.random.byte(), vector],
        native => {
            draft.case.state.may_write_mode = draft.random.one_in(2);
            let prefixes = draft.random.pick(&[0, 0, 1, 3, 4]);
            let mut code = encodings::prefixes(&mut draft.random, prefixes);
            match native {
                3 => code.extend([0x0F, 0xFF, vector]),
                4 => code.push(0xCF),
                _ => code.push(0x9D),
            }
            put_data(draft, 0);
            draft.put_random(0, u16::from(vector) * 4, 4);
            put_stacked_psw(draft);
            draft.put_code(&code);
            return;
        }
    };
    instruction(draft, &code);
    put_stacked_psw(draft);
    draft.put_random(0, u16::from(vector) * 4, 4);
}

/// Any words where POP PSW, RETI and RETEM find theirs.
fn put_stacked_psw(draft: &mut Draft) {
    let state = &draft.case.state;
    let (segment, top) = (state.segment[SS], state.general[SP]);
    for above in [0, 2, 4] {
        let word = draft.random.word();
        draft.put_word(segment, top.wrapping_add(above), word);
    }
}

fn interrupt(draft: &mut Draft) {
    if draft.random.one_in(4) {
        draft.case.state.may_write_mode = draft.random.one_in(2);
    } else {
        enter_8080_mode(draft);
    }
    control::interrupt(draft);
}

fn bad_arguments(draft: &mut Draft) {
    if draft.random.one_in(2) {
        draft.case.state.psw ^= MODE;
    }
    draft.case.state.may_write_mode = draft.random.one_in(2);
    edges::bad_arguments(draft);
}

/// Whatever the other streams have, where the mode may be written.
fn native_under_the_permission(draft: &mut Draft) {
    let number = u64::from(draft.random.double_word());
    any_case(draft, 0, number);
    draft.case.state.may_write_mode = true;
}

/// Code at the edges of memory and of its segment, or data there.
fn at_an_edge(draft: &mut Draft) {
    enter_8080_mode(draft);
    if draft.random.one_in(2) {
        let code = [
            draft.random.byte(),
            draft.random.byte(),
            draft.random.byte(),
        ];
        edges::choose_code_place(draft);
        put_data(draft, 0);
        draft.put_code(&code);
        return;
    }
    let (segment, offset) = edges::choose_operand_place(draft);
    edges::aim(draft, segment, offset);
    for code in [CW, DW, BW] {
        draft.case.state.general[code] = offset;
    }
    let first = draft.random.pick(&[
        0x02, 0x0A, 0x12, 0x1A, 0x22, 0x22, 0x2A, 0x2A, 0x32, 0x34, 0x35, 0x36, 0x3A, 0x70, 0x7E,
        0x86, 0xC1, 0xC5, 0xC9, 0xCD, 0xE3, 0xE5, 0xF1, 0xF5, 0xFF,
    ]);
    let [low, high] = offset.to_le_bytes();
    draft.put_code(&[first, low, high]);
}

fn reset(draft: &mut Draft) {
    enter_8080_mode(draft);
    control::reset(draft);
}
