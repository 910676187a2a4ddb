//! Instruction bytes: a walk over all opcodes, and random instructions that are in.

use super::random::Random;

/// First bytes that a mod-reg-mem byte follows.
const WITH_OPERANDS: [u8; 63] = [
    0x00, 0x01, 0x02, 0x03, 0x08, 0x09, 0x0A, 0x0B, 0x10, 0x11, 0x12, 0x13, 0x18, 0x19, 0x1A, 0x1B,
    0x20, 0x21, 0x22, 0x23, 0x28, 0x29, 0x2A, 0x2B, 0x30, 0x31, 0x32, 0x33, 0x38, 0x39, 0x3A, 0x3B,
    0x62, 0x69, 0x6B, 0x80, 0x81, 0x82, 0x83, 0x84, 0x85, 0x86, 0x87, 0x88, 0x89, 0x8A, 0x8B, 0x8C,
    0x8D, 0x8E, 0x8F, 0xC0, 0xC1, 0xC4, 0xC5, 0xC6, 0xC7, 0xD0, 0xD1, 0xD2, 0xD3, 0xF6, 0xF7,
];
const GROUPS: [u8; 2] = [0xFE, 0xFF];

/// Second bytes after 0F that a mod-reg-mem byte follows.
const SECOND_WITH_OPERANDS: [u8; 22] = [
    0x10, 0x11, 0x12, 0x13, 0x14, 0x15, 0x16, 0x17, 0x18, 0x19, 0x1A, 0x1B, 0x1C, 0x1D, 0x1E, 0x1F,
    0x28, 0x2A, 0x31, 0x33, 0x39, 0x3B,
];
const SECOND_ALONE: [u8; 4] = [0x20, 0x22, 0x26, 0xFF];

pub const PREFIXES: [u8; 9] = [0x26, 0x2E, 0x36, 0x3E, 0x64, 0x65, 0xF0, 0xF2, 0xF3];

/// How many opcodes the walk passes: first bytes, second bytes, and each with every operand byte.
pub const LENGTH_OF_WALK: u64 = 256 + 256 + 256 * (63 + 2 + 22);

/// Coprime to the length of the walk, so that every place is reached.
const STRIDE: u64 = 7919;

/// The opcode at a place of the walk; places follow each other in leaps.
pub fn walk(place: u64) -> Vec<u8> {
    let index = (place.wrapping_mul(STRIDE) % LENGTH_OF_WALK) as usize;
    let low_byte = (index % 256) as u8;
    match index / 256 {
        0 => vec![low_byte],
        1 => vec![0x0F, low_byte],
        block @ 2..=64 => vec![WITH_OPERANDS[block - 2], low_byte],
        block @ 65..=66 => vec![GROUPS[block - 65], low_byte],
        block => vec![0x0F, SECOND_WITH_OPERANDS[block - 67], low_byte],
    }
}

/// Adds displacement and immediate bytes, more than are needed.
pub fn with_tail(mut bytes: Vec<u8>, random: &mut Random) -> Vec<u8> {
    let decimal_conversion = matches!(bytes[..], [0xD4 | 0xD5]);
    if decimal_conversion && !random.one_in(4) {
        bytes.push(0x0A);
    }
    for _ in 0..3 {
        let word = if random.one_in(3) {
            random.below(0x200) as u16
        } else {
            random.some_word()
        };
        bytes.extend(word.to_le_bytes());
    }
    bytes
}

/// A displacement as the mod field wants it.
pub fn displacement_bytes(operands: u8, displacement: u16) -> Vec<u8> {
    match (operands >> 6, operands & 7) {
        (0, 6) | (2, _) => displacement.to_le_bytes().to_vec(),
        (1, _) => vec![displacement as u8],
        _ => Vec::new(),
    }
}

pub fn prefixes(random: &mut Random, count: u32) -> Vec<u8> {
    (0..count).map(|_| random.pick(&PREFIXES)).collect()
}

/// The opcode of an instruction that is in, without prefixes.
pub fn random_opcode(random: &mut Random) -> Vec<u8> {
    loop {
        // many opcodes want a reg field of 0
        let operands = random.byte() & random.pick(&[0xFF, 0xC7]);
        let bytes = match random.below(8) {
            0..=2 => vec![random.byte()],
            3..=5 => vec![random.pick(&WITH_OPERANDS), operands],
            6 => vec![random.pick(&GROUPS), operands],
            _ => vec![0x0F, random.pick(&SECOND_WITH_OPERANDS), operands],
        };
        let needs_operands = bytes.len() == 1 && has_operands(bytes[0]);
        if !needs_operands && is_in(&bytes) {
            return bytes;
        }
    }
}

pub fn has_operands(first: u8) -> bool {
    WITH_OPERANDS.contains(&first) || GROUPS.contains(&first)
}

/// Whether bytes without prefixes name an instruction that is in; an operand byte must be there.
pub fn is_in(bytes: &[u8]) -> bool {
    let operands = bytes.last().copied().unwrap_or(0);
    let (register_form, reg) = (operands >= 0xC0, operands >> 3 & 7);
    match bytes[0] {
        0x0F => bytes.len() > 1 && second_is_in(bytes[1], register_form, reg),
        0x63 | 0x66 | 0x67 | 0x9B | 0xD6 | 0xD8..=0xDF | 0xF1 => false,
        0x62 | 0x8D | 0xC4 | 0xC5 => !register_form,
        0x8C => reg <= 3,
        0x8E => reg <= 3 && reg != 1,
        0x8F | 0xC6 | 0xC7 => reg == 0,
        0xC0 | 0xC1 | 0xD0..=0xD3 => reg != 6,
        0xF6 | 0xF7 => reg != 1,
        0xFE => reg <= 1,
        0xFF => reg != 7 && !(register_form && (reg == 3 || reg == 5)),
        byte => !PREFIXES.contains(&byte),
    }
}

fn second_is_in(second: u8, register_form: bool, reg: u8) -> bool {
    match second {
        0x10..=0x1F | 0x28 | 0x2A => reg == 0,
        0x31 | 0x33 => register_form,
        0x39 | 0x3B => register_form && reg == 0,
        _ => SECOND_ALONE.contains(&second),
    }
}
