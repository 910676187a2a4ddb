//! Runs over small programs: loops, repeats, self-modification, traps and ports.

use super::draft::Draft;
use super::encodings;
use crate::gap_rule::GapRule;
use crate::judge::case::Call;
use crate::judge::names;
use crate::state::{BP, BRK, BW, CW, DS0, DS1, DW, IX, IY, PS, SP, SS};

const RETURN_FROM_INTERRUPT: u8 = 0xCF;
const HANDLER: u16 = 0x3F0;
pub const START: u16 = 0x400;
pub const DATA: u16 = 0x600;

/// A run of one of the programs, with a budget from none to all.
pub fn run(draft: &mut Draft) {
    draft.case.call = Call::Run;
    draft.case.budget = match draft.random.below(20) {
        0 => draft.random.pick(&[0, 1, 2, 0xFFFE, 0xFFFF]),
        1 => draft.random.word(),
        2..=5 => draft.random.below(2000) as u16,
        _ => draft.random.below(200) as u16,
    };
    lay_out(draft);
    let program = any_program(draft);
    draft.put(0, START, &program);
}

pub fn any_program(draft: &mut Draft) -> Vec<u8> {
    match draft.random.below(22) {
        0 | 1 => counted_loop(draft),
        2 | 3 => repeat_over_itself(draft),
        4 | 5 => port_loop(draft),
        6 | 7 => nested_calls(draft),
        8 | 9 => long_quiet_spell(draft),
        10 | 11 => division_by_anything(draft),
        12 => slide_over_the_end(draft),
        13 | 14 => stack_loads(draft),
        _ => random_loop(draft),
    }
}

/// Small RAM with vectors to a handler that returns, and pointers into RAM.
pub fn lay_out(draft: &mut Draft) {
    draft.case.ram_length = if draft.random.one_in(4) {
        // stack and data lie past RAM, or its end lies among them
        u32::from(DATA) + draft.random.below(0x220)
    } else {
        draft.random.between(0x800, 0x1800)
    };
    draft.case.log_length = draft.random.between(0, 400) as u16;
    draft.case.tape = (0..draft.random.below(100))
        .map(|_| draft.random.byte())
        .collect();
    draft.case.patches.clear();
    let single_step = draft.random.one_in(4);
    let state = &mut draft.case.state;
    for (code, offset) in [
        (BW, DATA),
        (BP, DATA + 0x40),
        (IX, DATA + 0x80),
        (IY, DATA + 0xC0),
        (SP, DATA + 0x1F0),
    ] {
        state.general[code] = offset + draft.random.below(0x30) as u16;
    }
    for code in [DS0, DS1, PS, SS] {
        state.segment[code] = 0;
    }
    state.pc = START;
    if single_step {
        state.psw |= BRK;
    }
    state.tape_place = 0;
    state.log_place = 0;
    for vector in 0..0x100 / 4 {
        draft.put_word(0, vector * 4, HANDLER);
        draft.put_word(0, vector * 4 + 2, 0);
    }
    draft.put(0, HANDLER, &[RETURN_FROM_INTERRUPT]);
    draft.put_random(0, DATA, 0x100);
}

/// Closes a loop over all that stands before it.
pub fn closed(mut program: Vec<u8>) -> Vec<u8> {
    let back = (program.len() as u16 + 3).wrapping_neg();
    program.push(0xE9);
    program.extend(back.to_le_bytes());
    program
}

/// Any instructions that are in, over and over, until one of them breaks the program.
fn random_loop(draft: &mut Draft) -> Vec<u8> {
    let mut program = Vec::new();
    for _ in 0..draft.random.between(2, 40) {
        if draft.random.one_in(8) {
            program.extend(encodings::prefixes(&mut draft.random, 1));
        }
        program.extend(tame_instruction(draft));
    }
    closed(program)
}

/// A random instruction with all its bytes; those that lose the program are rare.
pub fn tame_instruction(draft: &mut Draft) -> Vec<u8> {
    loop {
        let opcode = encodings::random_opcode(&mut draft.random);
        if !is_wild(&opcode) || draft.random.one_in(30) {
            return completed(draft, opcode);
        }
    }
}

/// Whether it moves the stack, a segment or PC to where nobody knows.
fn is_wild(opcode: &[u8]) -> bool {
    match opcode[0] {
        0x17 | 0x5C | 0x61 | 0x9A | 0x8E | 0x8F | 0xF4 => true,
        0xC2..=0xC5 | 0xC8..=0xCB | 0xCF => true,
        0x70..=0x7F | 0xE0..=0xE3 | 0xE8..=0xEB => true,
        0xFF => opcode[1] >> 3 & 7 >= 2,
        _ => false,
    }
}

/// Adds exactly the displacement and immediate bytes that are wanted.
fn completed(draft: &mut Draft, mut bytes: Vec<u8>) -> Vec<u8> {
    match bytes[..] {
        [0xD4 | 0xD5] => bytes.push(0x0A),
        [0x0F, _] | [_] => {}
        [.., operands] => {
            let distance = draft.random.below(0x40) as u16;
            let direct = operands & 0xC7 == 0x06;
            let displacement = if direct { DATA + distance } else { distance };
            bytes.extend(encodings::displacement_bytes(operands, displacement));
        }
        [] => {}
    }
    while bytes.len() < names::name(&bytes).length {
        bytes.push(draft.random.some_byte());
    }
    bytes
}

/// Counts CW down over harmless work in registers.
fn counted_loop(draft: &mut Draft) -> Vec<u8> {
    let [low, high] = draft.random.some_word().to_le_bytes();
    let mut body = Vec::new();
    for _ in 0..draft.random.between(1, 8) {
        let operation = draft.random.below(8) as u8;
        let operands = 0xC0 | draft.random.pick(&[0, 2, 3]) << 3 | draft.random.pick(&[0, 2, 3]);
        body.extend([operation << 3 | 3, operands]);
    }
    let back = (body.len() as u8 + 2).wrapping_neg();
    let branch = draft.random.pick(&[0xE0, 0xE1, 0xE2]);
    let mut program = vec![0xB9, low, high];
    program.extend(body);
    program.extend([branch, back]);
    closed(program)
}

/// A repeat whose blocks lie on the program itself.
fn repeat_over_itself(draft: &mut Draft) -> Vec<u8> {
    let state = &mut draft.case.state;
    state.general[CW] = draft.random.below(0x60) as u16;
    state.general[IX] = START - 0x10 + draft.random.below(0x40) as u16;
    state.general[IY] = START - 0x10 + draft.random.below(0x40) as u16;
    let repeat = draft.random.pick(&[0xF2, 0xF3, 0x64, 0x65]);
    let block = draft
        .random
        .pick(&[0xA4, 0xA5, 0xA6, 0xA7, 0xAA, 0xAB, 0xAE, 0xAF]);
    let mut program = vec![0x90; draft.random.below(4) as usize];
    program.extend([repeat, block]);
    for _ in 0..draft.random.below(20) {
        program.extend(tame_instruction(draft));
    }
    closed(program)
}

/// Inputs and outputs until the tape or the log is used up.
fn port_loop(draft: &mut Draft) -> Vec<u8> {
    draft.case.state.general[CW] = draft.random.below(20) as u16;
    draft.case.state.general[DW] = draft.random.some_word();
    let mut program = Vec::new();
    for _ in 0..draft.random.between(1, 6) {
        match draft.random.below(4) {
            0 => program.extend([draft.random.between(0xE4, 0xE7) as u8, draft.random.byte()]),
            1 => program.push(draft.random.between(0xEC, 0xEF) as u8),
            2 => program.push(draft.random.between(0x6C, 0x6F) as u8),
            _ => program.extend([0xF3, draft.random.between(0x6C, 0x6F) as u8]),
        }
    }
    closed(program)
}

/// Calls itself with a frame until the stack runs over vectors and program.
fn nested_calls(draft: &mut Draft) -> Vec<u8> {
    let level = draft.random.below(5) as u8;
    let locals = draft.random.below(16) as u8;
    let mut program = vec![0xC8, locals, 0, level];
    program.extend(tame_instruction(draft));
    let back = (program.len() as u16 + 3).wrapping_neg();
    if draft.random.one_in(2) {
        program.push(0xE8);
        program.extend(back.to_le_bytes());
    }
    program.extend([0xC9, 0xC3]);
    program
}

/// Loads of SS and SP, one after the other and alone, under the single-step flag as often as not.
fn stack_loads(draft: &mut Draft) -> Vec<u8> {
    if draft.random.one_in(2) {
        draft.case.state.psw ^= BRK;
    }
    draft.case.state.general[0] = 0;
    let mut program = Vec::new();
    for _ in 0..draft.random.between(1, 8) {
        let load: &[u8] = draft.random.pick(&[
            &[0x8E, 0xD0],
            &[0x8E, 0xD8, 0x8E, 0xC0],
            &[0x16, 0x17],
            &[0x1E, 0x1F],
            &[0x8C, 0xD1, 0x8E, 0xD1],
        ]);
        program.extend(load);
        match draft.random.below(4) {
            0 => program.extend([0xBC, 0xF0, (DATA >> 8) as u8 + 1]),
            1 => program.push(0x90),
            2 => program.push(0xCC),
            _ => {}
        }
    }
    closed(program)
}

/// The count reaches a ceiling, where it stops or, at the old one, goes on; then a record is written.
fn long_quiet_spell(draft: &mut Draft) -> Vec<u8> {
    let spell = draft.random.between(1, 30);
    let rule = draft.random.pick(&[GapRule::Old, GapRule::New]);
    draft.case.state.count = rule.ceiling() - draft.random.below(spell + 3);
    draft.case.state.psw &= !BRK;
    let mut program = vec![0x90; spell as usize];
    program.extend([0xE6, draft.random.byte()]);
    closed(program)
}

/// NOPs up to the segment's last offset; the run goes on at its first, over the vectors.
fn slide_over_the_end(draft: &mut Draft) -> Vec<u8> {
    draft.case.ram_length = draft.random.between(0xFFF0, 0x1_0010);
    draft.case.fill = 0x90;
    draft.case.state.pc = draft.random.between(0xFF00, 0xFFFF) as u16;
    random_loop(draft)
}

/// Divisions that now and then trap.
fn division_by_anything(draft: &mut Draft) -> Vec<u8> {
    let mut program = Vec::new();
    for _ in 0..draft.random.between(1, 10) {
        let operands = draft.random.pick(&[0xF1, 0xF2, 0xF3, 0xF9, 0xFA, 0xFB]);
        program.extend([draft.random.pick(&[0xF6, 0xF7]), operands]);
        let [low, high] = draft.random.some_word().to_le_bytes();
        program.extend([draft.random.between(0xB8, 0xBB) as u8, low, high]);
    }
    closed(program)
}
