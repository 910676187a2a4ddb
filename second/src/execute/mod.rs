//! What each native instruction does, chosen by its first byte.

mod arithmetic;
mod bits;
mod block;
mod branch;
mod cards;
mod decimal;
mod divide;
mod fields;
mod multiply;
mod shift;
mod stack;
mod transfer;

use crate::machine::{GoOnWhile, Machine, Outcome};
use crate::refusal::Refusal;
use crate::state::{AW, CW, CY, DIR, DS0, DS1, DW, IE, PS, SS};
use arithmetic::Operation::{Add, AddCarry, And, Compare, Or, Subtract, SubtractCarry, Xor};

const MOST_PREFIXES: u32 = 3;

/// Vectors of the traps that instructions take by themselves.
const DIVISION_VECTOR: u8 = 0;
const BREAK_VECTOR: u8 = 3;
const OVERFLOW_VECTOR: u8 = 4;
const INDEX_VECTOR: u8 = 5;

impl Machine<'_> {
    /// Reads and does an instruction; a refusal comes before anything is changed.
    // ranges would be compared one after the other before the jump
    #[allow(clippy::manual_range_patterns)]
    pub(crate) fn execute(&mut self) -> Outcome {
        let first = self.fetch_byte();
        let low_code = usize::from(first & 7);
        match first {
            0x00 => self.place_and_register::<u8>(Add),
            0x01 => self.place_and_register::<u16>(Add),
            0x02 => self.register_and_place::<u8>(Add),
            0x03 => self.register_and_place::<u16>(Add),
            0x04 => self.accumulator_and_immediate::<u8>(Add),
            0x05 => self.accumulator_and_immediate::<u16>(Add),
            0x06 => self.push(self.state.segment[DS1]),
            0x07 => self.pop_segment(DS1),
            0x08 => self.place_and_register::<u8>(Or),
            0x09 => self.place_and_register::<u16>(Or),
            0x0A => self.register_and_place::<u8>(Or),
            0x0B => self.register_and_place::<u16>(Or),
            0x0C => self.accumulator_and_immediate::<u8>(Or),
            0x0D => self.accumulator_and_immediate::<u16>(Or),
            0x0E => self.push(self.state.segment[PS]),
            0x0F => return self.execute_second_byte(),
            0x10 => self.place_and_register::<u8>(AddCarry),
            0x11 => self.place_and_register::<u16>(AddCarry),
            0x12 => self.register_and_place::<u8>(AddCarry),
            0x13 => self.register_and_place::<u16>(AddCarry),
            0x14 => self.accumulator_and_immediate::<u8>(AddCarry),
            0x15 => self.accumulator_and_immediate::<u16>(AddCarry),
            0x16 => self.push(self.state.segment[SS]),
            0x17 => self.pop_segment(SS),
            0x18 => self.place_and_register::<u8>(SubtractCarry),
            0x19 => self.place_and_register::<u16>(SubtractCarry),
            0x1A => self.register_and_place::<u8>(SubtractCarry),
            0x1B => self.register_and_place::<u16>(SubtractCarry),
            0x1C => self.accumulator_and_immediate::<u8>(SubtractCarry),
            0x1D => self.accumulator_and_immediate::<u16>(SubtractCarry),
            0x1E => self.push(self.state.segment[DS0]),
            0x1F => self.pop_segment(DS0),
            0x20 => self.place_and_register::<u8>(And),
            0x21 => self.place_and_register::<u16>(And),
            0x22 => self.register_and_place::<u8>(And),
            0x23 => self.register_and_place::<u16>(And),
            0x24 => self.accumulator_and_immediate::<u8>(And),
            0x25 => self.accumulator_and_immediate::<u16>(And),
            0x26 => return self.execute_in_segment(DS1),
            0x27 => self.adjust_packed_after_add(),
            0x28 => self.place_and_register::<u8>(Subtract),
            0x29 => self.place_and_register::<u16>(Subtract),
            0x2A => self.register_and_place::<u8>(Subtract),
            0x2B => self.register_and_place::<u16>(Subtract),
            0x2C => self.accumulator_and_immediate::<u8>(Subtract),
            0x2D => self.accumulator_and_immediate::<u16>(Subtract),
            0x2E => return self.execute_in_segment(PS),
            0x2F => self.adjust_packed_after_subtract(),
            0x30 => self.place_and_register::<u8>(Xor),
            0x31 => self.place_and_register::<u16>(Xor),
            0x32 => self.register_and_place::<u8>(Xor),
            0x33 => self.register_and_place::<u16>(Xor),
            0x34 => self.accumulator_and_immediate::<u8>(Xor),
            0x35 => self.accumulator_and_immediate::<u16>(Xor),
            0x36 => return self.execute_in_segment(SS),
            0x37 => self.adjust_unpacked_after_add(),
            0x38 => self.place_and_register::<u8>(Compare),
            0x39 => self.place_and_register::<u16>(Compare),
            0x3A => self.register_and_place::<u8>(Compare),
            0x3B => self.register_and_place::<u16>(Compare),
            0x3C => self.accumulator_and_immediate::<u8>(Compare),
            0x3D => self.accumulator_and_immediate::<u16>(Compare),
            0x3E => return self.execute_in_segment(DS0),
            0x3F => self.adjust_unpacked_after_subtract(),
            0x40 | 0x41 | 0x42 | 0x43 | 0x44 | 0x45 | 0x46 | 0x47 => {
                self.increment_register(low_code)
            }
            0x48 | 0x49 | 0x4A | 0x4B | 0x4C | 0x4D | 0x4E | 0x4F => {
                self.decrement_register(low_code)
            }
            0x50 | 0x51 | 0x52 | 0x53 | 0x54 | 0x55 | 0x56 | 0x57 => self.push_register(low_code),
            0x58 | 0x59 | 0x5A | 0x5B | 0x5C | 0x5D | 0x5E | 0x5F => self.pop_register(low_code),
            0x60 => self.push_all_registers(),
            0x61 => self.pop_all_registers(),
            0x62 => return self.check_index(),
            0x64 => return self.execute_repeated(GoOnWhile::NotCarry),
            0x65 => return self.execute_repeated(GoOnWhile::Carry),
            0x68 => self.push_immediate_word(),
            0x69 => self.multiply_by_immediate_word(),
            0x6A => self.push_immediate_byte(),
            0x6B => self.multiply_by_immediate_byte(),
            0x6C => return self.repeated(Machine::block_input::<u8>),
            0x6D => return self.repeated(Machine::block_input::<u16>),
            0x6E => return self.repeated(Machine::block_output::<u8>),
            0x6F => return self.repeated(Machine::block_output::<u16>),
            0x70 | 0x71 | 0x72 | 0x73 | 0x74 | 0x75 | 0x76 | 0x77 | 0x78 | 0x79 | 0x7A | 0x7B
            | 0x7C | 0x7D | 0x7E | 0x7F => self.branch_on_flags(first),
            0x80 | 0x82 => self.place_and_immediate::<u8>(),
            0x81 => self.place_and_immediate::<u16>(),
            0x83 => self.place_and_signed_byte(),
            0x84 => self.test_place_and_register::<u8>(),
            0x85 => self.test_place_and_register::<u16>(),
            0x86 => self.exchange_place_and_register::<u8>(),
            0x87 => self.exchange_place_and_register::<u16>(),
            0x88 => self.move_register_to_place::<u8>(),
            0x89 => self.move_register_to_place::<u16>(),
            0x8A => self.move_place_to_register::<u8>(),
            0x8B => self.move_place_to_register::<u16>(),
            0x8C => return self.move_segment_to_place(),
            0x8D => return self.load_effective_address(),
            0x8E => return self.move_place_to_segment(),
            0x8F => return self.pop_place(),
            0x90 | 0x91 | 0x92 | 0x93 | 0x94 | 0x95 | 0x96 | 0x97 => {
                self.state.general.swap(AW, low_code)
            }
            0x98 => self.widen_byte_to_word(),
            0x99 => self.widen_word_to_double_word(),
            0x9A => self.call_far(),
            0x9C => self.push(self.state.psw),
            0x9D => self.pop_psw(),
            0x9E => self.move_ah_to_psw(),
            0x9F => self.move_psw_to_ah(),
            0xA0 => self.move_direct_to_accumulator::<u8>(),
            0xA1 => self.move_direct_to_accumulator::<u16>(),
            0xA2 => self.move_accumulator_to_direct::<u8>(),
            0xA3 => self.move_accumulator_to_direct::<u16>(),
            0xA4 => return self.repeated(Machine::block_move::<u8>),
            0xA5 => return self.repeated(Machine::block_move::<u16>),
            0xA6 => return self.repeated(Machine::block_compare::<u8>),
            0xA7 => return self.repeated(Machine::block_compare::<u16>),
            0xA8 => self.test_accumulator_and_immediate::<u8>(),
            0xA9 => self.test_accumulator_and_immediate::<u16>(),
            0xAA => return self.repeated(Machine::block_store::<u8>),
            0xAB => return self.repeated(Machine::block_store::<u16>),
            0xAC => return self.repeated(Machine::block_load::<u8>),
            0xAD => return self.repeated(Machine::block_load::<u16>),
            0xAE => return self.repeated(Machine::block_scan::<u8>),
            0xAF => return self.repeated(Machine::block_scan::<u16>),
            0xB0 | 0xB1 | 0xB2 | 0xB3 | 0xB4 | 0xB5 | 0xB6 | 0xB7 => {
                self.move_immediate_to_register::<u8>(low_code)
            }
            0xB8 | 0xB9 | 0xBA | 0xBB | 0xBC | 0xBD | 0xBE | 0xBF => {
                self.move_immediate_to_register::<u16>(low_code)
            }
            0xC0 => return self.shift_by_immediate::<u8>(),
            0xC1 => return self.shift_by_immediate::<u16>(),
            0xC2 => self.return_near_and_drop(),
            0xC3 => self.return_near(),
            0xC4 => return self.load_pointer(DS1),
            0xC5 => return self.load_pointer(DS0),
            0xC6 => return self.move_immediate_to_place::<u8>(),
            0xC7 => return self.move_immediate_to_place::<u16>(),
            0xC8 => self.prepare_frame(),
            0xC9 => self.dispose_frame(),
            0xCA => self.return_far_and_drop(),
            0xCB => self.return_far(),
            0xCC => self.break_to_three(),
            0xCD => self.break_to_immediate(),
            0xCE => self.break_on_overflow(),
            0xCF => self.return_from_interrupt(),
            0xD0 => return self.shift_by_one::<u8>(),
            0xD1 => return self.shift_by_one::<u16>(),
            0xD2 => return self.shift_by_cl::<u8>(),
            0xD3 => return self.shift_by_cl::<u16>(),
            0xD4 => return self.convert_binary_to_decimal(),
            0xD5 => return self.convert_decimal_to_binary(),
            0xD7 => self.translate(),
            0xE0 | 0xE1 | 0xE2 => self.count_down_and_branch(first),
            0xE3 => self.branch_if(self.state.general[CW] == 0),
            0xE4 => return self.input_from_immediate_port::<u8>(),
            0xE5 => return self.input_from_immediate_port::<u16>(),
            0xE6 => return self.output_to_immediate_port::<u8>(),
            0xE7 => return self.output_to_immediate_port::<u16>(),
            0xE8 => self.call_near(),
            0xE9 => self.branch_near(),
            0xEA => self.branch_far(),
            0xEB => self.branch_if(true),
            0xEC => return self.input::<u8>(self.state.general[DW]),
            0xED => return self.input::<u16>(self.state.general[DW]),
            0xEE => return self.output::<u8>(self.state.general[DW]),
            0xEF => return self.output::<u16>(self.state.general[DW]),
            0xF0 => return self.execute_after_prefix(),
            0xF2 => return self.execute_repeated(GoOnWhile::NotZero),
            0xF3 => return self.execute_repeated(GoOnWhile::Zero),
            0xF4 => self.state.halted = true,
            0xF5 => self.state.psw ^= CY,
            0xF6 => return self.one_operand_group::<u8>(),
            0xF7 => return self.one_operand_group::<u16>(),
            0xF8 => self.state.set_flag(CY, false),
            0xF9 => self.state.set_flag(CY, true),
            0xFA => self.state.set_flag(IE, false),
            0xFB => self.state.set_flag(IE, true),
            0xFC => self.state.set_flag(DIR, false),
            0xFD => self.state.set_flag(DIR, true),
            0xFE => return self.byte_group(),
            0xFF => return self.word_group(),
            _ => return Err(Refusal::UnknownInstruction),
        }
        Ok(())
    }

    fn execute_in_segment(&mut self, code: usize) -> Outcome {
        self.now.segment_prefix = Some(code);
        self.execute_after_prefix()
    }

    fn execute_repeated(&mut self, repeat: GoOnWhile) -> Outcome {
        self.now.repeat = Some(repeat);
        self.execute_after_prefix()
    }

    fn execute_after_prefix(&mut self) -> Outcome {
        self.now.prefixes += 1;
        if self.now.prefixes > MOST_PREFIXES {
            return Err(Refusal::FourthPrefix);
        }
        self.execute()
    }

    fn execute_second_byte(&mut self) -> Outcome {
        let second = self.fetch_byte();
        match second {
            0x10..=0x1F => self.bit_instruction(second),
            0x20 => self.add_strings(),
            0x22 => self.subtract_strings(),
            0x26 => self.compare_strings(),
            0x28 => self.rotate_digit_left(),
            0x2A => self.rotate_digit_right(),
            0x31 => self.insert_field_of_register_length(),
            0x33 => self.extract_field_of_register_length(),
            0x39 => self.insert_field_of_immediate_length(),
            0x3B => self.extract_field_of_immediate_length(),
            0xFF => {
                self.break_for_emulation();
                Ok(())
            }
            _ => Err(Refusal::UnknownInstruction),
        }
    }
}
