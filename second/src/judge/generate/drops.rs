//! Cases whose writes go where no RAM is, wholly or by half.

use super::control;
use super::draft::Draft;
use super::edges;
use crate::memory::ADDRESS_SPACE;
use crate::state::{BRK, CW, SP};

/// Instructions that write at DS1:IY, at SS:BP or at the 16-bit address that follows them.
const STORES: [&[u8]; 44] = [
    &[0xA2],
    &[0xA3],
    &[0xA3],
    &[0x88, 0x06],
    &[0x89, 0x06],
    &[0x89, 0x46, 0x00],
    &[0x8C, 0x0E],
    &[0x8F, 0x06],
    &[0xC6, 0x06],
    &[0xC7, 0x06],
    &[0x86, 0x06],
    &[0x87, 0x0E],
    &[0x00, 0x06],
    &[0x11, 0x06],
    &[0x29, 0x1E],
    &[0x80, 0x26],
    &[0x81, 0x36],
    &[0x83, 0x06],
    &[0xFE, 0x06],
    &[0xFF, 0x0E],
    &[0xF6, 0x16],
    &[0xF7, 0x1E],
    &[0xD0, 0x06],
    &[0xD1, 0x3E],
    &[0xD2, 0x26],
    &[0xD3, 0x2E],
    &[0xC0, 0x16],
    &[0xC1, 0x1E],
    &[0x0F, 0x1C, 0x06],
    &[0x0F, 0x1F, 0x06],
    &[0x0F, 0x13, 0x06],
    &[0x0F, 0x28, 0x06],
    &[0x0F, 0x2A, 0x06],
    &[0x0F, 0x20],
    &[0x0F, 0x22],
    &[0x0F, 0x31, 0xC1],
    &[0x0F, 0x39, 0xC2],
    &[0xA4],
    &[0xA5],
    &[0xAA],
    &[0xAB],
    &[0x6C],
    &[0x6D],
    &[0xF3, 0xAB],
];

/// Instructions that push.
const PUSHES: [&[u8]; 14] = [
    &[0x50],
    &[0x54],
    &[0x60],
    &[0x60],
    &[0x68],
    &[0x6A],
    &[0x9C],
    &[0x0E],
    &[0xC8],
    &[0xC8],
    &[0xE8],
    &[0x9A],
    &[0xCC],
    &[0xCD],
];

/// Segment and offset of a place in ROM, where nothing is, or on the edge of RAM.
fn target(draft: &mut Draft) -> (u16, u16) {
    let space = ADDRESS_SPACE as u32;
    let (ram, rom) = (draft.case.ram_length, draft.case.rom_length);
    let place = match draft.random.below(6) {
        // its second byte lies past RAM, or its first one does
        0 | 1 => ram + space - draft.random.below(3),
        // its second byte lies at address 0
        2 => space - 1,
        3 => space - 1 - draft.random.below(rom + 2),
        4 => ram + draft.random.below(space - rom - ram + 1),
        // its second byte lies at the segment's first offset
        _ => {
            let near = draft.random.below(ram / 16 + 2);
            let segment = draft.random.pick(&[near, 0xF000 + near]);
            return (segment as u16, 0xFFFF);
        }
    } % space;
    let high_bits = draft.random.pick(&[0x0000, 0x1230, 0xFFF0]);
    let offset = high_bits | place as u16 & 0x0F;
    ((place.wrapping_sub(u32::from(offset)) >> 4) as u16, offset)
}

pub fn store(draft: &mut Draft) {
    let (segment, offset) = target(draft);
    edges::aim(draft, segment, offset);
    let count = draft.random.below(6) as u16;
    draft.case.state.general[CW] = count;
    let mut code = draft.random.pick(&STORES).to_vec();
    code.extend(offset.to_le_bytes());
    code.extend(draft.random.some_word().to_le_bytes());
    draft.put_code(&code);
}

/// Pushes, traps and interrupts whose stack lies about such a place.
pub fn push(draft: &mut Draft) {
    let (segment, offset) = target(draft);
    let above = draft.random.below(12) as u16;
    edges::aim(draft, segment, offset);
    draft.case.state.general[SP] = offset.wrapping_add(above);
    if draft.random.one_in(4) {
        draft.case.state.psw ^= BRK;
    }
    draft.put_random(0, 0, 24);
    if draft.random.one_in(4) {
        return control::enter_interrupt(draft);
    }
    let mut code = draft.random.pick(&PUSHES).to_vec();
    let level = draft.random.pick(&[0, 1, 2, 3, 9, 255]);
    code.extend([draft.random.below(8) as u8, 0, level, 0]);
    draft.put_code(&code);
}
