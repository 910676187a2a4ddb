//! Cases about the edges of memory and of the arguments.

use super::draft::Draft;
use super::encodings;
use super::gaps;
use crate::judge::case::{Call, LARGEST_MEMORY};
use crate::memory::ADDRESS_SPACE;
use crate::state::{BP, DS0, DS1, IX, IY, SP, SS};

/// Code that begins shortly before RAM's end, ROM's start, the last address or the last offset.
pub fn choose_code_place(draft: &mut Draft) {
    let space = ADDRESS_SPACE as u32;
    let before = draft.random.between(1, 8);
    let edge = match draft.random.below(4) {
        0 => draft.case.ram_length,
        1 => space - draft.case.rom_length,
        2 => space,
        _ => draft.random.below(space),
    };
    let place = (edge + space - before) % space;
    let last_offsets = draft.random.one_in(2);
    if last_offsets {
        let offset = 0xFFF0 | place as u16 & 0x0F;
        draft.set_code_place_at_offset(place, offset);
    } else {
        draft.set_code_place(place);
    }
}

/// Any instruction there.
pub fn code_at_an_edge(draft: &mut Draft) {
    choose_code_place(draft);
    let count = draft.random.below(3);
    let mut code = encodings::prefixes(&mut draft.random, count);
    let opcode = encodings::random_opcode(&mut draft.random);
    code.extend(encodings::with_tail(opcode, &mut draft.random));
    draft.put_data();
    draft.put_code(&code);
}

/// Segment and offset of an operand that crosses the end of its segment, RAM's end, ROM's start or the last address.
pub fn choose_operand_place(draft: &mut Draft) -> (u16, u16) {
    let space = ADDRESS_SPACE as u32;
    let before = draft.random.between(1, 4);
    let low_paragraphs = (draft.case.ram_length / 16).clamp(1, 0xFFF);
    let place = match draft.random.below(4) {
        0 => draft.case.ram_length + space - before,
        1 => space - draft.case.rom_length - before,
        2 => space - before,
        _ => draft.random.between(1, low_paragraphs) * 16 + space - before,
    } % space;
    let high_bits = draft.random.pick(&[0xFFF0, 0xFFF0, 0x0000, 0x1230]);
    let offset = high_bits | place as u16 & 0x0F;
    let segment = (place.wrapping_sub(u32::from(offset)) >> 4) as u16;
    (segment, offset)
}

pub fn operand_at_an_edge(draft: &mut Draft) {
    let (segment, offset) = choose_operand_place(draft);
    aim(draft, segment, offset);
    let mut code = opcode_with_direct_address(draft);
    code.extend(offset.to_le_bytes());
    code.extend(draft.random.some_word().to_le_bytes());
    draft.put_code(&code);
}

/// Lets every data segment and every pointer name one place, and puts random bytes there.
pub fn aim(draft: &mut Draft, segment: u16, offset: u16) {
    for code in [DS1, SS, DS0] {
        draft.case.state.segment[code] = segment;
    }
    for code in [SP, BP, IX, IY] {
        draft.case.state.general[code] = offset;
    }
    draft.put_random(segment, offset, 6);
}

/// Any opcode that is in; one with operands gets the form of a 16-bit address.
fn opcode_with_direct_address(draft: &mut Draft) -> Vec<u8> {
    let with_two_words = [
        [0x62, 0x06],
        [0xC4, 0x0E],
        [0xC5, 0x16],
        [0xFF, 0x1E],
        [0xFF, 0x2E],
    ];
    if draft.random.one_in(4) {
        return draft.random.pick(&with_two_words).to_vec();
    }
    loop {
        let mut opcode = encodings::random_opcode(&mut draft.random);
        if opcode.len() > 1 {
            let last = opcode.len() - 1;
            opcode[last] = opcode[last] & 0x38 | 0x06;
        }
        if encodings::is_in(&opcode) {
            return opcode;
        }
    }
}

/// Arguments that are refused, one or several at a time, and those just on the good side.
pub fn bad_arguments(draft: &mut Draft) {
    for _ in 0..draft.random.between(1, 3) {
        spoil(draft);
    }
    draft.case.call = draft.random.pick(&[Call::Step, Call::Run, Call::Interrupt]);
    draft.case.budget = draft.random.pick(&[0, 1, 2, 100]);
    draft.case.may_be_masked = draft.random.one_in(2);
    draft.case.vector = draft.random.byte();
    let count = draft.random.pick(&[0, 1, 4]);
    let mut code = encodings::prefixes(&mut draft.random, count);
    let opcode = if draft.random.one_in(3) {
        vec![draft.random.pick(&[0xF1, 0xD6, 0x63, 0x9B, 0xEC, 0xEF])]
    } else {
        encodings::random_opcode(&mut draft.random)
    };
    code.extend(encodings::with_tail(opcode, &mut draft.random));
    draft.put_data();
    draft.put_code(&code);
}

fn spoil(draft: &mut Draft) {
    let space = ADDRESS_SPACE as u32;
    match draft.random.below(12) {
        0..=2 => {
            let bit = draft.random.pick(&[1, 3, 5, 12, 13, 14, 15]);
            draft.case.state.psw ^= 1 << bit;
        }
        3 | 4 => {
            let beyond = draft.random.pick(&[0, 1, 2, 0x1_0000]);
            draft.case.state.tape_place = draft.case.tape.len() as u32 + beyond;
        }
        5 | 6 => {
            let beyond = draft.random.pick(&[0, 1, 2, 0x1_0000]);
            draft.case.state.log_place = u32::from(draft.case.log_length) + beyond;
        }
        // no count is refused, also those that no old log could hold
        7 | 8 => draft.case.state.count = gaps::about_a_ceiling(&mut draft.random),
        9 | 10 => draft.case.state.halted = true,
        // whole address spaces are slow to fill, so they are rare
        _ if draft.random.one_in(4) => {
            let over = draft.random.below(2);
            let rom = draft.random.pick(&[0, 16, 1024]);
            let lengths = [
                (space - rom + over, rom),
                (0, space + over),
                (16, LARGEST_MEMORY),
            ];
            (draft.case.ram_length, draft.case.rom_length) = draft.random.pick(&lengths);
        }
        _ => {
            draft.case.tape.clear();
            draft.case.state.tape_place = 0;
            draft.case.log_length = 0;
            draft.case.state.log_place = 0;
        }
    }
}
