//! Cases about values: arithmetic, digits, fields, blocks and ports.

use super::draft::Draft;
use super::encodings;
use super::gaps;
use crate::portlog::LONGEST_RECORD;
use crate::state::{AW, CW, DS0, DS1, DW, IX, IY};

/// Counts up to 255 on both sides of every width.
pub fn shift(draft: &mut Draft) {
    let counts = [
        0, 1, 2, 7, 8, 9, 10, 15, 16, 17, 18, 31, 32, 33, 34, 64, 127, 128, 254, 255,
    ];
    let count = if draft.random.one_in(2) {
        draft.random.pick(&counts)
    } else {
        draft.random.byte()
    };
    let first = draft.random.pick(&[0xC0, 0xC1, 0xD0, 0xD1, 0xD2, 0xD3]);
    let reg = draft.random.below(8) as u8;
    let operands = draft.random.byte() & 0xC7 | reg << 3;
    set_low_byte(draft, CW, count);
    draft.put_data();
    let displacement = draft.random.below(0x100) as u16;
    draft.put_operand_data(operands, displacement);
    let mut code = vec![first, operands];
    if matches!(first, 0xC0 | 0xC1) {
        code.extend(encodings::displacement_bytes(operands, displacement));
        code.push(count);
    } else {
        code.extend(displacement.to_le_bytes());
    }
    draft.put_code(&code);
}

fn set_low_byte(draft: &mut Draft, code: usize, byte: u8) {
    let word = &mut draft.case.state.general[code];
    *word = *word & 0xFF00 | u16::from(byte);
}

/// Dividends built from quotients at the limits.
pub fn divide(draft: &mut Draft) {
    let word = draft.random.one_in(2);
    let signed = draft.random.one_in(2);
    let divisor = draft.random.some_word();
    let limits: [i64; 13] = [
        0, 1, -1, 0x7F, 0x80, -0x7F, -0x80, -0x81, 0xFF, 0x100, 0x7FFF, 0x8000, 0xFFFF,
    ];
    let negated = if signed && draft.random.one_in(2) {
        -1
    } else {
        1
    };
    let quotient = draft.random.pick(&limits) * negated;
    let factor = if signed {
        i64::from(divisor as i16)
    } else {
        i64::from(divisor)
    };
    let factor = if word {
        factor
    } else {
        i64::from(factor as i8)
    };
    let remainder = i64::from(draft.random.below(3)) - 1;
    let dividend = quotient * factor + remainder;
    let general = &mut draft.case.state.general;
    general[AW] = dividend as u16;
    general[DW] = (dividend >> 16) as u16;
    // a register that does not hold the dividend
    let register = draft.random.pick(&[1, 3, 5, 7]);
    if word {
        draft.case.state.general[register] = divisor;
    } else {
        let code = register & 3;
        draft.case.state.general[code] = divisor & 0xFF | divisor << 8;
    }
    let operands = 0xC0 | if signed { 0x38 } else { 0x30 } | register as u8;
    draft.put_data();
    draft.put_code(&[0xF6 | u8::from(word), operands]);
}

/// Factors whose product lies about the end of the low half.
pub fn multiply(draft: &mut Draft) {
    let products = [
        0x7F, 0x80, 0xFF, 0x100, 0x1FF, 0x7FFF, 0x8000, 0xFFFF, 0x1_0000, 0x1_FFFF,
    ];
    let product = draft.random.pick(&products);
    let factor = draft
        .random
        .pick(&[1, 2, 3, 4, 5, 0x10, 0x7F, 0x80, 0xFF, 0x100]);
    let mut other = (product / factor + draft.random.below(2)) as u16;
    if draft.random.one_in(3) {
        other = other.wrapping_neg();
    }
    draft.case.state.general[AW] = other;
    draft.case.state.general[CW] = factor as u16;
    let [low, high] = (factor as u16).to_le_bytes();
    let code = match draft.random.below(6) {
        0 => vec![0xF6, 0xE1],
        1 => vec![0xF7, 0xE1],
        2 => vec![0xF6, 0xE9],
        3 => vec![0xF7, 0xE9],
        4 => vec![0x69, 0xD0, low, high],
        _ => vec![0x6B, 0xD0, low],
    };
    draft.put_code(&code);
}

/// Decimal adjustments and conversions of every accumulator.
pub fn adjust(draft: &mut Draft) {
    draft.case.state.general[AW] = draft.random.word();
    let first = draft.random.pick(&[0x27, 0x2F, 0x37, 0x3F, 0xD4, 0xD5]);
    draft.put_code(&[first, 0x0A]);
}

/// Strings with good and bad digits, often one on the other.
pub fn decimal_strings(draft: &mut Draft) {
    let length = draft
        .random
        .pick(&[0, 1, 2, 3, 4, 5, 7, 8, 20, 253, 254, 255]);
    set_low_byte(draft, CW, length);
    let overlapping = draft.random.one_in(3);
    if overlapping {
        let state = &mut draft.case.state;
        state.segment[DS1] = state.segment[DS0];
        let distance = draft.random.below(5) as u16;
        state.general[IX] = state.general[IY].wrapping_add(distance).wrapping_sub(2);
    }
    let decimal = draft.random.one_in(2);
    let state = draft.case.state.clone();
    for index in 0..u16::from(length).min(24) {
        for (segment, pointer) in [(DS0, IX), (DS1, IY)] {
            let byte = if decimal {
                (draft.random.below(10) << 4 | draft.random.below(10)) as u8
            } else {
                draft.random.some_byte()
            };
            let offset = state.general[pointer].wrapping_add(index);
            draft.put(state.segment[segment], offset, &[byte]);
        }
    }
    let second = draft.random.pick(&[0x20, 0x22, 0x26]);
    let mut code = optional_prefix(draft);
    code.extend([0x0F, second]);
    draft.put_code(&code);
}

fn optional_prefix(draft: &mut Draft) -> Vec<u8> {
    let count = u32::from(draft.random.one_in(3));
    encodings::prefixes(&mut draft.random, count)
}

/// INS and EXT of every offset and length, by register and immediate.
pub fn bit_field(draft: &mut Draft) {
    draft.put_data();
    for code in 0..4 {
        if draft.random.one_in(2) {
            draft.case.state.general[code] = draft.random.word() & 0x0F0F;
        }
    }
    let mut code = optional_prefix(draft);
    let second = draft.random.pick(&[0x31, 0x33, 0x39, 0x3B]);
    let registers = if second & 8 == 0 { 0x3F } else { 0x07 };
    let operands = 0xC0 | draft.random.byte() & registers;
    code.extend([0x0F, second, operands, draft.random.byte()]);
    draft.put_code(&code);
}

/// The eight operations and multiplications on boundary values in registers.
pub fn bounded_arithmetic(draft: &mut Draft) {
    for code in 0..8 {
        draft.case.state.general[code] = draft.random.boundary_word();
    }
    let operation = draft.random.below(8) as u8;
    let operands = 0xC0 | draft.random.byte();
    let immediate = draft.random.boundary_word().to_le_bytes();
    let first = match draft.random.below(4) {
        0 => operation << 3 | draft.random.below(4) as u8,
        1 => 0x80 | draft.random.below(4) as u8,
        2 => draft.random.pick(&[0x69, 0x6B]),
        _ => draft.random.pick(&[0xF6, 0xF7, 0xFE, 0xFF]),
    };
    draft.put_code(&[first, operands, immediate[0], immediate[1]]);
}

/// Block primitives under every repeat prefix, near the end of the count.
pub fn block(draft: &mut Draft) {
    let primitives = [
        0x6C, 0x6D, 0x6E, 0x6F, 0xA4, 0xA5, 0xA6, 0xA7, 0xAA, 0xAB, 0xAC, 0xAD, 0xAE, 0xAF,
    ];
    draft.case.state.general[CW] = draft.random.pick(&[0, 1, 1, 2, 3, 0x100, 0xFFFF]);
    draft.put_data();
    let equal = draft.random.one_in(2);
    if equal {
        let state = draft.case.state.clone();
        let element = state.general[AW].to_le_bytes();
        draft.put(state.segment[DS0], state.general[IX], &element);
        draft.put(state.segment[DS1], state.general[IY], &element);
    }
    let mut code = Vec::new();
    if !draft.random.one_in(5) {
        code.push(draft.random.pick(&[0x64, 0x65, 0xF2, 0xF3]));
    }
    for _ in 0..draft.random.below(3) {
        code.push(draft.random.pick(&encodings::PREFIXES));
    }
    code.push(draft.random.pick(&primitives));
    draft.put_code(&code);
}

/// Leaves little of the tape and little room in the log.
pub fn use_up_tape_and_log(draft: &mut Draft) {
    let tape_length = draft.case.tape.len() as u32;
    let unread = draft.random.below(4).min(tape_length);
    draft.case.state.tape_place = tape_length - unread;
    let rooms = LONGEST_RECORD as u32 + 2;
    let room = draft
        .random
        .below(rooms)
        .min(u32::from(draft.case.log_length));
    draft.case.state.log_place = u32::from(draft.case.log_length) - room;
}

/// Ports with the tape and the log at their ends and numbers at their group limits.
pub fn port(draft: &mut Draft) {
    let at_group_limits = [
        0, 1, 0x1F, 0x20, 0x7F, 0x80, 0xFFF, 0x1000, 0x3FFF, 0x4000, 0xFFFE, 0xFFFF,
    ];
    draft.case.state.general[DW] = draft.random.pick(&at_group_limits);
    draft.case.state.general[AW] = draft.random.pick(&at_group_limits);
    draft.case.state.count = match draft.random.below(4) {
        0 => gaps::about_a_ceiling(&mut draft.random),
        _ => draft.some_count(),
    };
    use_up_tape_and_log(draft);
    if draft.random.one_in(2) {
        let word = draft.random.pick(&at_group_limits).to_le_bytes();
        let place = draft.case.state.tape_place as usize;
        for (byte, new) in draft.case.tape.iter_mut().skip(place).zip(word) {
            *byte = new;
        }
    }
    draft.case.state.general[CW] = draft.random.pick(&[0, 1, 2, 5]);
    draft.put_data();
    let first = draft.random.pick(&[
        0xE4, 0xE5, 0xE6, 0xE7, 0xEC, 0xED, 0xEE, 0xEF, 0x6C, 0x6D, 0x6E, 0x6F,
    ]);
    let mut code = optional_prefix(draft);
    code.extend([first, draft.random.some_byte()]);
    draft.put_code(&code);
}
