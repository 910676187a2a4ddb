//! Bytes and words: what the W bit of an instruction chooses between.

use crate::memory::Memory;
use crate::state::State;

pub trait Width: Copy + Eq {
    const BITS: u32;
    const BYTES: u16;

    /// Keeps the low bits of a number.
    fn low_bits(number: u32) -> Self;
    fn number(self) -> u32;
    fn signed(self) -> i32;

    fn register(state: &State, code: usize) -> Self;
    fn set_register(state: &mut State, code: usize, value: Self);

    fn read(memory: &Memory, segment: u16, offset: u16) -> Self;
    /// Says how many bytes were dropped.
    fn write(memory: &mut Memory, segment: u16, offset: u16, value: Self) -> u32;

    /// Bus cycles of one access at an address or port.
    fn bus_cycles(place: u16) -> u32;

    fn sign(self) -> bool {
        self.signed() < 0
    }
}

impl Width for u8 {
    const BITS: u32 = 8;
    const BYTES: u16 = 1;

    fn low_bits(number: u32) -> u8 {
        number as u8
    }

    fn number(self) -> u32 {
        u32::from(self)
    }

    fn signed(self) -> i32 {
        i32::from(self as i8)
    }

    fn register(state: &State, code: usize) -> u8 {
        state.byte_register(code)
    }

    fn set_register(state: &mut State, code: usize, value: u8) {
        state.set_byte_register(code, value);
    }

    fn read(memory: &Memory, segment: u16, offset: u16) -> u8 {
        memory.read_byte(segment, offset)
    }

    fn write(memory: &mut Memory, segment: u16, offset: u16, value: u8) -> u32 {
        memory.write_byte(segment, offset, value)
    }

    fn bus_cycles(_place: u16) -> u32 {
        1
    }
}

impl Width for u16 {
    const BITS: u32 = 16;
    const BYTES: u16 = 2;

    fn low_bits(number: u32) -> u16 {
        number as u16
    }

    fn number(self) -> u32 {
        u32::from(self)
    }

    fn signed(self) -> i32 {
        i32::from(self as i16)
    }

    fn register(state: &State, code: usize) -> u16 {
        state.general[code]
    }

    fn set_register(state: &mut State, code: usize, value: u16) {
        state.general[code] = value;
    }

    fn read(memory: &Memory, segment: u16, offset: u16) -> u16 {
        memory.read_word(segment, offset)
    }

    fn write(memory: &mut Memory, segment: u16, offset: u16, value: u16) -> u32 {
        memory.write_word(segment, offset, value)
    }

    fn bus_cycles(place: u16) -> u32 {
        1 + u32::from(place & 1)
    }
}
