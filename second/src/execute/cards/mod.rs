//! The 8080 mode: what each instruction of the uPD8080AF does there, chosen by its first byte.

mod arithmetic;
mod jumps;
mod mode;
mod stack;
mod transfers;

use crate::machine::{Machine, Outcome};
use crate::operand::Place;
use crate::refusal::Refusal;
use crate::state::{BP, BW, CW, CY, DS0, DW, IE};

/// B C D E H L M A: the native codes of CH CL DH DL BH BL, none for the byte at HL, and AL's.
const REGISTERS: [Option<usize>; 8] = [
    Some(5),
    Some(1),
    Some(6),
    Some(2),
    Some(7),
    Some(3),
    None,
    Some(0),
];

/// BC DE HL SP.
const PAIRS: [usize; 4] = [CW, DW, BW, BP];

impl Machine<'_> {
    /// Reads and does an instruction, before which no prefix stands; a refusal comes before anything is changed.
    pub(crate) fn execute_8080(&mut self) -> Outcome {
        let first = self.fetch_byte();
        let (high, low) = (usize::from(first >> 3 & 7), usize::from(first & 7));
        let pair = PAIRS[high >> 1];
        match first {
            0x00 => {}
            0x01 | 0x11 | 0x21 | 0x31 => self.state.general[pair] = self.fetch_word(),
            0x02 | 0x12 => self.store_a(self.state.general[pair]),
            0x0A | 0x1A => self.load_a(self.state.general[pair]),
            0x03 | 0x13 | 0x23 | 0x33 => self.add_to_pair(pair, 1),
            0x0B | 0x1B | 0x2B | 0x3B => self.add_to_pair(pair, 0xFFFF),
            0x09 | 0x19 | 0x29 | 0x39 => self.add_pair_to_hl(pair),
            0x04 | 0x0C | 0x14 | 0x1C | 0x24 | 0x2C | 0x34 | 0x3C => self.increment_8080(high),
            0x05 | 0x0D | 0x15 | 0x1D | 0x25 | 0x2D | 0x35 | 0x3D => self.decrement_8080(high),
            0x06 | 0x0E | 0x16 | 0x1E | 0x26 | 0x2E | 0x36 | 0x3E => self.move_immediate(high),
            0x07 | 0x0F | 0x17 | 0x1F => self.rotate_a(high),
            0x22 => self.store_hl(),
            0x2A => self.load_hl(),
            0x32 => {
                let offset = self.fetch_word();
                self.store_a(offset);
            }
            0x3A => {
                let offset = self.fetch_word();
                self.load_a(offset);
            }
            0x27 => self.adjust_a(),
            0x2F => self.state.set_al(!self.state.al()),
            0x37 => self.state.set_flag(CY, true),
            0x3F => self.state.psw ^= CY,
            0x76 => self.state.halted = true,
            0x40..=0x7F => self.move_byte(high, low),
            0x80..=0xBF => {
                let right = self.get(self.place_8080(low));
                self.operate_8080(high, right);
            }
            0xC6 | 0xCE | 0xD6 | 0xDE | 0xE6 | 0xEE | 0xF6 | 0xFE => {
                let right = self.fetch_byte();
                self.operate_8080(high, right);
            }
            0xC0 | 0xC8 | 0xD0 | 0xD8 | 0xE0 | 0xE8 | 0xF0 | 0xF8 => {
                self.return_8080_if(self.condition_holds(high));
            }
            0xC9 => self.return_8080_if(true),
            0xC2 | 0xCA | 0xD2 | 0xDA | 0xE2 | 0xEA | 0xF2 | 0xFA => {
                self.jump_if(self.condition_holds(high));
            }
            0xC3 => self.jump_if(true),
            0xC4 | 0xCC | 0xD4 | 0xDC | 0xE4 | 0xEC | 0xF4 | 0xFC => {
                self.call_8080_if(self.condition_holds(high));
            }
            0xCD => self.call_8080_if(true),
            0xC7 | 0xCF | 0xD7 | 0xDF | 0xE7 | 0xEF | 0xF7 | 0xFF => self.restart(high),
            0xC1 | 0xD1 | 0xE1 => self.state.general[pair] = self.pop_8080(),
            0xF1 => self.pop_a_and_flags(),
            0xC5 | 0xD5 | 0xE5 => self.push_8080(self.state.general[pair]),
            0xF5 => self.push_a_and_flags(),
            0xE3 => self.exchange_hl_and_top(),
            0xE9 => self.now.next_pc = self.state.general[BW],
            0xEB => self.state.general.swap(DW, BW),
            0xF9 => self.state.general[BP] = self.state.general[BW],
            0xD3 => return self.output_to_immediate_port::<u8>(),
            0xDB => return self.input_from_immediate_port::<u8>(),
            0xF3 => self.state.set_flag(IE, false),
            0xFB => self.state.set_flag(IE, true),
            0xED => return self.change_mode(),
            0x08 | 0x10 | 0x18 | 0x20 | 0x28 | 0x30 | 0x38 | 0xCB | 0xD9 | 0xDD | 0xFD => {
                return Err(Refusal::UnknownInstruction);
            }
        }
        Ok(())
    }

    /// A register of the uPD8080AF, or the byte at HL.
    fn place_8080(&self, code: usize) -> Place {
        match REGISTERS[code] {
            Some(native) => Place::Register(native),
            None => Place::Memory {
                segment: self.state.segment[DS0],
                offset: self.state.general[BW],
            },
        }
    }
}
