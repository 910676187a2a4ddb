//! Cases about the stack, traps, prefixes, interrupts and resets.

use super::draft::Draft;
use super::encodings;
use crate::judge::case::Call;
use crate::state::{BRK, SP, SS, V};

const STACK_TOPS: [u16; 12] = [0, 1, 2, 3, 4, 5, 0x10, 0x11, 0xFFFC, 0xFFFD, 0xFFFE, 0xFFFF];

/// A stack pointer at the ends of its segment as often as not, odd and even.
pub fn choose_stack_top(draft: &mut Draft, pointer: usize) {
    if draft.random.one_in(2) {
        draft.case.state.general[pointer] = draft.random.pick(&STACK_TOPS);
    }
}

/// Pushes, pops, calls and returns.
pub fn stack(draft: &mut Draft) {
    choose_stack_top(draft, SP);
    draft.put_data();
    let segment = draft.case.state.segment[SS];
    let top = draft.case.state.general[SP];
    draft.put_random(segment, top, 18);
    let first = draft.random.pick(&[
        0x06, 0x0E, 0x16, 0x1E, 0x07, 0x17, 0x1F, 0x54, 0x5C, 0x60, 0x61, 0x68, 0x6A, 0x8F, 0x9A,
        0x9C, 0x9D, 0xC2, 0xC3, 0xC8, 0xC9, 0xCA, 0xCB, 0xCF, 0xE8, 0xFF,
    ]);
    let operands = match first {
        // SP is both operand and stack pointer
        0xFF if draft.random.one_in(4) => draft.random.pick(&[0xD4, 0xE4, 0xF4]),
        0x8F => draft.random.byte() & 0xC7,
        0xFF => draft.random.byte() & 0xC7 | draft.random.pick(&[2, 3, 4, 5, 6]) << 3,
        _ => draft.random.byte(),
    };
    let displacement = draft.random.below(0x200) as u16;
    draft.put_operand_data(operands, displacement);
    let mut code = vec![first, operands];
    code.extend(displacement.to_le_bytes());
    code.push(draft.random.below(5) as u8);
    draft.put_code(&code);
}

/// Stack frames of every level, also over their own pointers.
pub fn prepare(draft: &mut Draft) {
    choose_stack_top(draft, SP);
    if draft.random.one_in(3) {
        let near = draft.random.below(9) as u16;
        draft.case.state.general[5] = draft.case.state.general[SP].wrapping_add(near);
    }
    draft.put_data();
    let level = match draft.random.below(3) {
        0 => draft.random.pick(&[0, 1, 2, 3, 255]),
        1 => draft.random.below(12) as u8,
        _ => draft.random.byte(),
    };
    let [low, high] = draft.random.some_word().to_le_bytes();
    draft.put_code(&[0xC8, low, high, level]);
}

/// Instructions that trap, with and without the single-step flag.
pub fn trap(draft: &mut Draft) {
    choose_stack_top(draft, SP);
    if draft.random.one_in(2) {
        draft.case.state.psw ^= BRK;
    }
    if draft.random.one_in(2) {
        draft.case.state.psw ^= V;
    }
    draft.put_data();
    draft.put_random(0, 0, 64);
    let operands = draft.random.byte() & 0x3F;
    let displacement = draft.random.below(0x200) as u16;
    draft.put_operand_data(operands, displacement);
    let first = draft
        .random
        .pick(&[0xCC, 0xCD, 0xCE, 0x62, 0xF4, 0xF4, 0x90, 0xFB]);
    let second = if first == 0x62 {
        operands
    } else {
        draft.random.pick(&[0, 1, 2, 3, 4, 5, 6, 7, 8, 255])
    };
    let [low, high] = displacement.to_le_bytes();
    draft.put_code(&[first, second, low, high]);
}

/// MOV and POP into segment registers and what is much like them, with and without the single-step flag.
pub fn segment_load(draft: &mut Draft) {
    choose_stack_top(draft, SP);
    if draft.random.one_in(2) {
        draft.case.state.psw ^= BRK;
    }
    draft.case.state.after_segment_load = draft.random.one_in(2);
    draft.put_data();
    draft.put_random(0, 0, 8);
    let operands = draft.random.byte();
    let displacement = draft.random.below(0x200) as u16;
    draft.put_operand_data(operands, displacement);
    let first = draft.random.pick(&[
        0x8E, 0x8E, 0x8E, 0x07, 0x17, 0x1F, 0x8C, 0x8F, 0xC4, 0xC5, 0x58, 0xEA, 0xCB, 0xF4, 0xF1,
    ]);
    let count = u32::from(draft.random.one_in(4));
    let mut code = encodings::prefixes(&mut draft.random, count);
    code.extend([first, operands]);
    code.extend(displacement.to_le_bytes());
    draft.put_code(&code);
}

/// POP PSW and RETI of any word, also over the single-step flag.
pub fn popped_flags(draft: &mut Draft) {
    choose_stack_top(draft, SP);
    if draft.random.one_in(2) {
        draft.case.state.psw ^= BRK;
    }
    draft.put_random(0, 0, 8);
    let segment = draft.case.state.segment[SS];
    let top = draft.case.state.general[SP];
    for index in 0..3 {
        let word = draft.random.word();
        draft.put_word(segment, top.wrapping_add(2 * index), word);
    }
    let first = draft.random.pick(&[0x9D, 0xCF, 0x9E]);
    draft.put_code(&[first]);
}

/// None to four prefixes, alike and different, before any instruction.
pub fn prefix_set(draft: &mut Draft) {
    let count = draft.random.below(5);
    let mut code = encodings::prefixes(&mut draft.random, count);
    let alike = draft.random.one_in(3);
    if let (true, Some(&prefix)) = (alike, code.first()) {
        code.fill(prefix);
    }
    let opcode = encodings::random_opcode(&mut draft.random);
    let operands = opcode.last().copied().unwrap_or(0);
    draft.put_data();
    let displacement = draft.random.below(0x100) as u16;
    draft.put_operand_data(operands, displacement);
    code.extend(opcode);
    code.extend(displacement.to_le_bytes());
    code.extend(draft.random.some_word().to_le_bytes());
    draft.put_code(&code);
}

pub fn interrupt(draft: &mut Draft) {
    choose_stack_top(draft, SP);
    draft.put_data();
    enter_interrupt(draft);
}

/// The call alone, of any vector, over the stack that is there.
pub fn enter_interrupt(draft: &mut Draft) {
    draft.case.call = Call::Interrupt;
    draft.case.vector = draft.random.some_byte();
    draft.case.may_be_masked = draft.random.one_in(2);
    draft.case.state.halted = draft.random.one_in(3);
    draft.case.state.after_segment_load = draft.random.one_in(4);
    draft.put_random(0, u16::from(draft.case.vector) * 4, 4);
}

pub fn reset(draft: &mut Draft) {
    draft.case.call = Call::Reset;
    draft.case.state.halted = draft.random.one_in(2);
    draft.case.state.after_segment_load = draft.random.one_in(2);
    draft.case.state.psw = draft.random.word();
    draft.case.state.tape_place = draft.random.below(20);
    draft.put_data();
}
