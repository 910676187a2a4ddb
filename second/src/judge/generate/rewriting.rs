//! Programs that write over themselves: over what comes next, over a loop's body, over the writing instruction itself.

use super::draft::Draft;
use super::encodings;
use super::programs::{self, DATA, START};
use crate::memory::{address, ADDRESS_SPACE};
use crate::state::{AW, BP, BW, CW, DS0, DS1, IX, IY, PS, SP};

/// Instructions that write at the 16-bit address after these bytes, and how many bytes follow it.
const WRITERS: [(&[u8], usize); 27] = [
    (&[0xC6, 0x06], 1),
    (&[0xC7, 0x06], 2),
    (&[0xFE, 0x06], 0),
    (&[0xFE, 0x0E], 0),
    (&[0xFF, 0x06], 0),
    (&[0x80, 0x36], 1),
    (&[0x80, 0x06], 1),
    (&[0x82, 0x2E], 1),
    (&[0x81, 0x36], 2),
    (&[0x83, 0x06], 1),
    (&[0x00, 0x06], 0),
    (&[0x31, 0x16], 0),
    (&[0x88, 0x1E], 0),
    (&[0x89, 0x06], 0),
    (&[0x86, 0x06], 0),
    (&[0x87, 0x16], 0),
    (&[0xD0, 0x06], 0),
    (&[0xD1, 0x0E], 0),
    (&[0xC0, 0x06], 1),
    (&[0xF6, 0x16], 0),
    (&[0xF7, 0x1E], 0),
    (&[0x0F, 0x1E, 0x06], 1),
    (&[0x0F, 0x17, 0x06], 0),
    (&[0x0F, 0x28, 0x06], 0),
    (&[0x8F, 0x06], 0),
    (&[0xA2], 0),
    (&[0xA3], 0),
];

/// Names PS as the segment of a writer.
const CODE_SEGMENT: u8 = 0x2E;

/// Bits whose change often makes another good instruction.
const SMALL_CHANGES: [u8; 8] = [0x01, 0x02, 0x04, 0x08, 0x10, 0x18, 0x20, 0x28];

/// A program whose writers still need their addresses.
#[derive(Default)]
struct Program {
    bytes: Vec<u8>,
    writers: Vec<Writer>,
    /// Last bytes of instructions that stay good whatever stands there.
    soft: Vec<usize>,
}

struct Writer {
    start: usize,
    address_at: usize,
    names_code_segment: bool,
}

/// A loop in a loop; writers stand in the inner one and after it.
pub fn loop_over_itself(draft: &mut Draft) {
    programs::lay_out(draft);
    draft.case.state.general[AW] = draft.random.word();
    let mut program = Program::default();
    let turns = draft.random.pick(&[1, 1, 2, 3, 7, 20]);
    program.bytes.extend([0xB9, turns, 0]);
    let inner = program.bytes.len();
    for _ in 0..draft.random.between(1, 6) {
        add_part(draft, &mut program, 4);
    }
    let back = inner.wrapping_sub(program.bytes.len() + 2) as u8;
    program.bytes.extend([0xE2, back]);
    for _ in 0..draft.random.between(0, 3) {
        add_part(draft, &mut program, 2);
    }
    place_program(draft, program.bytes.len() as u32);
    close(draft, &mut program);
    aim_writers(draft, &mut program);
    draft.put_code(&program.bytes);
}

/// A writer once in so many times, otherwise something harmless or any instruction.
fn add_part(draft: &mut Draft, program: &mut Program, writer_in: u32) {
    if draft.random.one_in(writer_in) {
        add_writer(draft, program);
        return;
    }
    let prefixes = draft.random.pick(&[0, 0, 0, 1, 2]);
    let prefixes = encodings::prefixes(&mut draft.random, prefixes);
    program.bytes.extend(prefixes);
    if draft.random.one_in(6) {
        program.bytes.extend(programs::tame_instruction(draft));
        return;
    }
    let instruction = harmless(draft);
    let ends_with_a_number = instruction.len() > 1 && instruction[0] & 7 != 3;
    program.bytes.extend(instruction);
    if ends_with_a_number {
        program.soft.push(program.bytes.len() - 1);
    }
}

fn add_writer(draft: &mut Draft, program: &mut Program) {
    let (before, after) = draft.random.pick(&WRITERS);
    let start = program.bytes.len();
    let names_code_segment = draft.random.one_in(3);
    if names_code_segment {
        program.bytes.push(CODE_SEGMENT);
    }
    program.bytes.extend(before);
    program.writers.push(Writer {
        start,
        address_at: program.bytes.len(),
        names_code_segment,
    });
    program.bytes.extend([0, 0]);
    for _ in 0..after {
        let byte = if draft.random.one_in(4) {
            draft.random.byte()
        } else {
            draft.random.pick(&SMALL_CHANGES)
        };
        program.bytes.push(byte);
    }
}

/// An instruction on registers that no loop and no pointer needs.
fn harmless(draft: &mut Draft) -> Vec<u8> {
    let random = &mut draft.random;
    let operation = random.below(8) as u8;
    let register = random.pick(&[0, 2]);
    let [low, high] = random.some_word().to_le_bytes();
    match random.below(10) {
        0 | 1 => vec![0x40 | random.pick(&[0, 8]) | register],
        2 => vec![operation << 3 | 4, low],
        3 => vec![operation << 3 | 5, low, high],
        4 => vec![0xB0 | register | random.pick(&[0, 4]), low],
        5 => vec![0xB8 | register, low, high],
        6 => vec![0x80, 0xC0 | operation << 3 | register, low],
        7 => vec![0x81, 0xC0 | operation << 3 | register, low, high],
        8 => vec![operation << 3 | 3, 0xC0 | register << 3 | (register ^ 2)],
        _ => vec![random.pick(&[0x27, 0x2F, 0x37, 0x3F, 0x90, 0x98, 0x99, 0xF5, 0xF8, 0xF9])],
    }
}

/// Places for code: plain, by other pairs that name the address, over the ends of a segment, of ROM and of RAM.
fn place_program(draft: &mut Draft, length: u32) {
    let start = u32::from(START);
    match draft.random.below(16) {
        0..=5 => {}
        6..=9 => draft.set_code_place(start),
        // ROM's last bytes and, without a gap, RAM's first
        10..=12 => {
            draft.case.rom_length = draft.random.between(1, length.max(16));
            let in_rom = draft.random.between(1, draft.case.rom_length);
            let place = ADDRESS_SPACE as u32 - in_rom;
            draft.set_code_place_at_offset(place, place as u16 & 0x0F);
        }
        // the segment's last offsets and its first
        13 => {
            draft.case.ram_length = 0x1_0010;
            draft.case.state.pc = (draft.random.below(length) as u16 + 1).wrapping_neg();
        }
        // an offset that wraps in the middle, to where nothing is
        14 => {
            let offset = (draft.random.below(length) as u16 + 1).wrapping_neg();
            draft.set_code_place_at_offset(start | u32::from(offset & 0x0F), offset);
        }
        // RAM's last bytes and nothing after them
        _ => draft.case.ram_length = start + draft.random.below(length + 2),
    }
    if draft.random.one_in(2) {
        draft.case.state.segment[DS0] = draft.case.state.segment[PS];
    }
}

/// Goes back to the start: near, or far by another pair that names its address.
fn close(draft: &mut Draft, program: &mut Program) {
    if draft.random.one_in(5) {
        let state = &mut draft.case.state;
        let place = address(state.segment[PS], state.pc) as u32;
        let before = (state.segment[PS], state.pc);
        draft.set_code_place(place);
        let state = &mut draft.case.state;
        let (segment, offset) = (state.segment[PS], state.pc);
        (state.segment[PS], state.pc) = before;
        program.bytes.push(0xEA);
        program.bytes.extend(offset.to_le_bytes());
        program.bytes.extend(segment.to_le_bytes());
    } else {
        let back = (program.bytes.len() as u16 + 3).wrapping_neg();
        program.bytes.push(0xE9);
        program.bytes.extend(back.to_le_bytes());
    }
}

/// Gives each writer the address of some byte of the program.
fn aim_writers(draft: &mut Draft, program: &mut Program) {
    let length = program.bytes.len();
    for writer in &program.writers {
        let next = writer.address_at + 2;
        let victim = match draft.random.below(8) {
            // what comes next, mostly
            0 | 1 => next + draft.random.below(6) as usize,
            // itself
            2 => writer.start + draft.random.below(6) as usize,
            3 => draft.random.below(length as u32) as usize,
            _ if program.soft.is_empty() => next,
            _ => draft.random.pick(&program.soft),
        };
        let state = &draft.case.state;
        let (code, offset) = (state.segment[PS], state.pc.wrapping_add(victim as u16));
        let same_segment = writer.names_code_segment || state.segment[DS0] == code;
        let offset = if same_segment {
            offset
        } else {
            address(code, offset) as u16
        };
        program.bytes[writer.address_at..][..2].copy_from_slice(&offset.to_le_bytes());
    }
}

/// Any instructions over and over, whose pointers and stack lie on the program.
pub fn pointers_on_itself(draft: &mut Draft) {
    programs::lay_out(draft);
    for code in [BW, BP, IX, IY, SP] {
        if draft.random.one_in(2) {
            draft.case.state.general[code] = START + draft.random.below(0x60) as u16;
        }
    }
    draft.case.state.general[AW] = draft.random.word();
    draft.case.state.general[CW] = draft.random.below(12) as u16;
    if draft.random.one_in(3) {
        // each segment by another name, so that the pointers still reach the program
        let segment = draft.random.below(0x20) as u16;
        let state = &mut draft.case.state;
        (state.segment[DS0], state.segment[DS1]) = (segment, segment);
        for code in [BW, IX, IY] {
            state.general[code] = state.general[code].wrapping_sub(segment * 16);
        }
    }
    let program = programs::any_program(draft);
    draft.put(0, START, &program);
}

/// Pushes of words over the code that is still to be done.
pub fn pushes_over_itself(draft: &mut Draft) {
    programs::lay_out(draft);
    let mut program = Vec::new();
    for _ in 0..draft.random.between(2, 16) {
        if draft.random.one_in(4) {
            program.extend(harmless(draft));
        } else {
            let [low, high] = draft
                .random
                .pick(&[0x9090u16, 0x4840, 0x4A42, 0x0090, 0x50EB])
                .to_le_bytes();
            program.extend([0x68, low, high]);
        }
    }
    let back = (program.len() as u16 + 3).wrapping_neg();
    program.push(draft.random.pick(&[0xE8, 0xE9]));
    program.extend(back.to_le_bytes());
    let above = draft.random.below(program.len() as u32 + 8) as u16;
    draft.case.state.general[SP] = START + above;
    draft.case.fill = 0x90;
    draft.put(0, START, &program);
    draft.put_random(0, DATA, 4);
}
