//! Runs over programs that go from mode to mode: a native loop, 8080 code, and native routines that it calls.

use super::draft::Draft;
use super::programs::{self, START};
use super::runs;
use crate::judge::case::Call;
use crate::judge::names_8080;
use crate::state::{BP, BRK, BW, CW, DW, MODE, PS};

/// Vectors that the programs go through.
const TO_CARD: u8 = 0x20;
const TO_ROUTINE: u8 = 0x21;

const ROUTINE: u16 = 0x480;
const CARD: u16 = 0x500;
const CARD_STACK: u16 = 0x700;

const BRKEM: [u8; 3] = [0x0F, 0xFF, TO_CARD];
const CALLN: [u8; 3] = [0xED, 0xED, TO_ROUTINE];
const RETEM: [u8; 2] = [0xED, 0xFD];
const RETI: u8 = 0xCF;

/// Bytes that are harmless in both modes: INC, DEC or MOV, decimal adjustments or what A and CY take, XCH or SUB.
const IN_BOTH_MODES: [u8; 14] = [
    0x27, 0x2F, 0x37, 0x3F, 0x40, 0x41, 0x42, 0x47, 0x48, 0x49, 0x4A, 0x4F, 0x90, 0x92,
];

pub fn run(draft: &mut Draft) {
    programs::lay_out(draft);
    draft.case.call = Call::Run;
    draft.case.budget = runs::some_budget(&mut draft.random);
    draft.case.state.general[BP] = CARD_STACK + draft.random.below(0x30) as u16;
    if draft.random.one_in(4) {
        same_code_in_both_modes(draft);
    } else {
        native_and_8080_code(draft);
    }
    if draft.random.one_in(3) {
        draft.case.state.psw &= !BRK;
    }
}

/// BRKEM leads back to the code before it, and BRKEM's own bytes, read as RRC and RST 7, to a RETEM.
fn same_code_in_both_modes(draft: &mut Draft) {
    let mut program = Vec::new();
    for _ in 0..draft.random.between(1, 12) {
        program.push(draft.random.pick(&IN_BOTH_MODES));
    }
    let start = START + draft.random.below(program.len() as u32) as u16;
    program.extend(BRKEM);
    let program = programs::closed(program);
    draft.put_word(0, u16::from(TO_CARD) * 4, start);
    draft.put(0, START, &program);
    draft.put(0, 7 * 8, &RETEM);
}

fn native_and_8080_code(draft: &mut Draft) {
    if draft.random.one_in(3) {
        // pointers on the 8080 code itself
        for code in [BW, CW, DW] {
            draft.case.state.general[code] = CARD + draft.random.below(0x40) as u16;
        }
    }
    // code segments by any of the names of their addresses
    let segment = draft.random.pick(&[0, 0, 1, 0x10, 0xFFFF]);
    let start = CARD.wrapping_sub(segment << 4);
    draft.put_word(0, u16::from(TO_CARD) * 4, start);
    draft.put_word(0, u16::from(TO_CARD) * 4 + 2, segment);
    draft.put_word(0, u16::from(TO_ROUTINE) * 4, ROUTINE);
    let native = native_loop(draft);
    draft.put(0, START, &native);
    let routine = routine(draft);
    draft.put(0, ROUTINE, &routine);
    let card = card(draft, start);
    draft.put(0, CARD, &card);
    if draft.random.one_in(3) {
        let state = &mut draft.case.state;
        state.psw &= !MODE;
        state.may_write_mode = true;
        (state.segment[PS], state.pc) = (segment, start);
    }
}

/// BRKEM among other instructions, over and over.
fn native_loop(draft: &mut Draft) -> Vec<u8> {
    let mut program = Vec::new();
    for _ in 0..draft.random.between(1, 4) {
        if draft.random.one_in(2) {
            program.extend(programs::tame_instruction(draft));
        }
        program.extend(BRKEM);
    }
    programs::closed(program)
}

/// What CALLN leads to: it returns, sometimes through another BRKEM or a PSW of its own making.
fn routine(draft: &mut Draft) -> Vec<u8> {
    let mut program = Vec::new();
    for _ in 0..draft.random.below(3) {
        program.extend(programs::tame_instruction(draft));
    }
    match draft.random.below(8) {
        0 => program.extend(BRKEM),
        // PUSH 7002h, POP PSW: the 8080 mode where it may be written; what follows is read so
        1 => program.extend([0x68, 0x02, 0x70, 0x9D]),
        2 => program.extend([0x9C, 0x9D]),
        _ => {}
    }
    program.push(RETI);
    program
}

/// 8080 instructions with jumps and calls among themselves, CALLN and, in the end, RETEM, a jump back or a halt.
fn card(draft: &mut Draft, start: u16) -> Vec<u8> {
    let mut program = Vec::new();
    let mut starts = vec![0];
    for _ in 0..draft.random.between(2, 24) {
        let mut instruction = if draft.random.one_in(8) {
            CALLN.to_vec()
        } else {
            tame_8080_instruction(draft)
        };
        if is_jump(instruction[0]) {
            let target = start.wrapping_add(draft.random.pick(&starts));
            instruction[1..].copy_from_slice(&target.to_le_bytes());
        }
        program.extend(instruction);
        starts.push(program.len() as u16);
    }
    match draft.random.below(6) {
        0 => {
            program.push(0xC3);
            program.extend(start.to_le_bytes());
        }
        1 => program.push(0x76),
        _ => program.extend(RETEM),
    }
    program
}

/// A random instruction with all its bytes; those that lose the program are rare.
fn tame_8080_instruction(draft: &mut Draft) -> Vec<u8> {
    loop {
        let first = draft.random.byte();
        if is_wild(first) && !draft.random.one_in(40) {
            continue;
        }
        let length = names_8080::name(&[first]).length;
        let mut bytes = vec![first];
        while bytes.len() < length {
            bytes.push(draft.random.some_byte());
        }
        return bytes;
    }
}

fn is_jump(first: u8) -> bool {
    matches!(first, 0xC3 | 0xCD) || first >= 0xC0 && matches!(first & 7, 2 | 4)
}

/// Whether it is unknown, stops the machine or moves PC or BP to where nobody knows.
fn is_wild(first: u8) -> bool {
    match first {
        0x08 | 0x10 | 0x18 | 0x20 | 0x28 | 0x30 | 0x38 | 0xCB | 0xD9 | 0xDD | 0xFD => true,
        0x31 | 0x76 | 0xC9 | 0xE9 | 0xED | 0xF9 => true,
        0xC3 | 0xCD => true,
        0xC0..=0xFF => first & 7 == 0 || first & 7 == 7,
        _ => false,
    }
}
