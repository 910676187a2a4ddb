//! A case in the making: random state and memory, then bytes put where they are wanted.

use super::gaps;
use super::random::Random;
use crate::gap_rule::GapRule;
use crate::judge::case::{Call, Case, Lent, Patch, MOST_PATCHES};
use crate::memory::{address, ADDRESS_SPACE};
use crate::portlog::LONGEST_RECORD;
use crate::state::{State, BP, BRK, BW, DS0, DS1, IX, IY, PS, SS};

pub struct Draft {
    pub random: Random,
    pub case: Case,
}

impl Draft {
    /// A step of a good state over small memory.
    pub fn new(mut random: Random) -> Draft {
        let (ram_length, rom_length) = memory_lengths(&mut random);
        let case = Case {
            call: Call::Step,
            state: State::after_reset(),
            may_be_masked: false,
            vector: 0,
            budget: 0,
            ram_length,
            rom_length,
            log_length: random.between(LONGEST_RECORD as u32, 40) as u16,
            fill: random.pick(&[0x00, 0xFF, 0x90, 0x5A]),
            gap_rule: random.pick(&[GapRule::Old, GapRule::New]),
            patches: Vec::new(),
            tape: (0..random.between(2, 8))
                .map(|_| random.some_byte())
                .collect(),
        };
        let mut draft = Draft { random, case };
        draft.choose_registers();
        draft.choose_code_place();
        draft.choose_places_and_count();
        draft.case.state.after_segment_load = draft.random.one_in(8);
        draft
    }

    fn choose_registers(&mut self) {
        for code in 0..8 {
            self.case.state.general[code] = self.some_offset();
        }
        for code in [DS1, SS, DS0] {
            self.case.state.segment[code] = self.some_segment();
        }
        self.case.state.psw = self.some_psw();
    }

    /// A word that is often an offset into RAM.
    pub fn some_offset(&mut self) -> u16 {
        match self.random.below(4) {
            0 | 1 => self.random.below(self.case.ram_length.clamp(1, 0x10000)) as u16,
            2 => self.random.boundary_word(),
            _ => self.random.word(),
        }
    }

    fn some_segment(&mut self) -> u16 {
        match self.random.below(10) {
            0..=3 => 0,
            4..=6 => self
                .random
                .below((self.case.ram_length / 16).clamp(1, 0x10000)) as u16,
            7 => self.random.between(0xFFF0, 0xFFFF) as u16,
            8 => self.random.between(0xF000, 0xFFFF) as u16,
            _ => self.random.some_word(),
        }
    }

    /// Right fixed bits; BRK is set now and then.
    pub fn some_psw(&mut self) -> u16 {
        let flags = self.random.word() & 0x0FD5 & !BRK;
        let single_step = if self.random.one_in(8) { BRK } else { 0 };
        0xF002 | flags | single_step
    }

    fn choose_code_place(&mut self) {
        let rom_start = ADDRESS_SPACE as u32 - self.case.rom_length;
        let in_rom = self.case.ram_length == 0 || self.case.rom_length > 0 && self.random.one_in(4);
        let place = if in_rom {
            self.random
                .between(rom_start.saturating_sub(2), ADDRESS_SPACE as u32 - 1)
        } else {
            self.random.below(self.case.ram_length)
        };
        self.set_code_place(place);
    }

    /// Lets PS:PC name an address, by any of the many pairs that do.
    pub fn set_code_place(&mut self, place: u32) {
        let high_bits = self.random.pick(&[0, 0, 0, 0xFFF0, 0x7FF0, 0x1230]);
        self.set_code_place_at_offset(place, high_bits | place as u16 & 0x0F);
    }

    /// The offset's low four bits must be those of the address.
    pub fn set_code_place_at_offset(&mut self, place: u32, offset: u16) {
        self.case.state.pc = offset;
        self.case.state.segment[PS] = (place.wrapping_sub(u32::from(offset)) >> 4) as u16;
    }

    /// Leaves two bytes of tape and room for the longest record.
    fn choose_places_and_count(&mut self) {
        let tape_length = self.case.tape.len() as u32;
        let log_length = u32::from(self.case.log_length);
        self.case.state.tape_place = self.random.below(tape_length - 1);
        let last_place = log_length - LONGEST_RECORD as u32;
        self.case.state.log_place = self.random.between(0, last_place);
        self.case.state.count = self.some_count();
    }

    pub fn some_count(&mut self) -> u32 {
        match self.random.below(4) {
            0 => 0,
            _ => gaps::some_gap(&mut self.random),
        }
    }

    /// Patches whatever lies at the offset and after it; empty addresses take nothing.
    pub fn put(&mut self, segment: u16, offset: u16, bytes: &[u8]) {
        let rom_start = ADDRESS_SPACE.saturating_sub(self.case.rom_length as usize);
        for (index, &value) in bytes.iter().enumerate() {
            let place = address(segment, offset.wrapping_add(index as u16));
            let (lent, index) = if place < self.case.ram_length as usize {
                (Lent::Ram, place)
            } else if place >= rom_start {
                (Lent::Rom, place - rom_start)
            } else {
                continue;
            };
            self.patch(lent, index as u32, value);
        }
    }

    pub fn patch(&mut self, lent: Lent, index: u32, value: u8) {
        if self.case.patches.len() < usize::from(MOST_PATCHES) {
            self.case.patches.push(Patch { lent, index, value });
        }
    }

    pub fn put_word(&mut self, segment: u16, offset: u16, word: u16) {
        self.put(segment, offset, &word.to_le_bytes());
    }

    pub fn put_code(&mut self, bytes: &[u8]) {
        self.put(self.case.state.segment[PS], self.case.state.pc, bytes);
    }

    /// Random bytes where the registers point, and in the vectors that traps use.
    pub fn put_data(&mut self) {
        let [.., bw, sp, bp, ix, iy] = self.case.state.general;
        for (segment, offset) in [
            (DS0, ix),
            (DS1, iy),
            (SS, sp),
            (SS, bp),
            (DS0, bw),
            (DS0, iy),
            (DS0, bw.wrapping_add(ix)),
            (SS, bp.wrapping_add(iy)),
        ] {
            self.put_random(self.case.state.segment[segment], offset, 6);
        }
        if self.random.one_in(2) {
            self.put_random(0, 0, 24);
        }
    }

    pub fn put_random(&mut self, segment: u16, offset: u16, count: u16) {
        for index in 0..count {
            let byte = self.random.some_byte();
            self.put(segment, offset.wrapping_add(index), &[byte]);
        }
    }

    /// Random bytes at an operand's address in each segment, since a prefix may name any.
    pub fn put_operand_data(&mut self, operands: u8, displacement: u16) {
        let general = &self.case.state.general;
        let (mode, form) = (operands >> 6, operands & 7);
        let registers = match form {
            0 => general[BW].wrapping_add(general[IX]),
            1 => general[BW].wrapping_add(general[IY]),
            2 => general[BP].wrapping_add(general[IX]),
            3 => general[BP].wrapping_add(general[IY]),
            4 => general[IX],
            5 => general[IY],
            6 if mode == 0 => 0,
            6 => general[BP],
            _ => general[BW],
        };
        let displacement = match mode {
            0 if form != 6 => 0,
            1 => displacement as i8 as u16,
            _ => displacement,
        };
        for code in 0..4 {
            let segment = self.case.state.segment[code];
            self.put_random(segment, registers.wrapping_add(displacement), 4);
        }
    }
}

/// Mostly small, so that streams are quick; now and then the whole address space.
fn memory_lengths(random: &mut Random) -> (u32, u32) {
    let rom = random.pick(&[0, 0, 16, 64, 256, 1024]);
    match random.below(400) {
        0 => (ADDRESS_SPACE as u32 - rom, rom),
        1..=10 => (0x11000, rom),
        11..=14 => (0x11000, 0x10000),
        15..=35 => (0, rom.max(16)),
        36..=60 => (random.between(1, 64), rom),
        61..=200 => (random.between(256, 1100), rom),
        _ => (random.between(1100, 4096), rom),
    }
}
