//! Bit fields of 1 to 16 bits: INS and EXT.

use crate::machine::{Machine, Outcome};
use crate::refusal::Refusal;
use crate::state::{AW, DS0, DS1, IX, IY};

/// Where a field lies, counted from the bit 0 of the word that IX or IY points to.
struct Field {
    offset_register: usize,
    offset: u32,
    length: u32,
}

impl Field {
    fn end(&self) -> u32 {
        self.offset + self.length
    }

    fn reaches_second_word(&self) -> bool {
        self.end() > 16
    }

    /// Ones at the low bits, as many as the field has.
    fn low_ones(&self) -> u32 {
        (1 << self.length) - 1
    }
}

impl Machine<'_> {
    pub(super) fn insert_field_of_register_length(&mut self) -> Outcome {
        let field = self.fetch_field_of_register_length()?;
        self.insert(&field);
        Ok(())
    }

    pub(super) fn insert_field_of_immediate_length(&mut self) -> Outcome {
        let field = self.fetch_field_of_immediate_length()?;
        self.insert(&field);
        Ok(())
    }

    pub(super) fn extract_field_of_register_length(&mut self) -> Outcome {
        let field = self.fetch_field_of_register_length()?;
        self.extract(&field);
        Ok(())
    }

    pub(super) fn extract_field_of_immediate_length(&mut self) -> Outcome {
        let field = self.fetch_field_of_immediate_length()?;
        self.extract(&field);
        Ok(())
    }

    fn fetch_field_of_register_length(&mut self) -> Result<Field, Refusal> {
        let operands = self.fetch_operands();
        let offset_register = operands
            .register_code()
            .ok_or(Refusal::UnknownInstruction)?;
        let length_code = self.state.byte_register(operands.reg);
        Ok(self.field(offset_register, length_code))
    }

    fn fetch_field_of_immediate_length(&mut self) -> Result<Field, Refusal> {
        let operands = self.fetch_operands();
        match operands.register_code() {
            Some(offset_register) if operands.reg == 0 => {
                let length_code = self.fetch_byte();
                Ok(self.field(offset_register, length_code))
            }
            _ => Err(Refusal::UnknownInstruction),
        }
    }

    fn field(&self, offset_register: usize, length_code: u8) -> Field {
        Field {
            offset_register,
            offset: u32::from(self.state.byte_register(offset_register) & 0x0F),
            length: u32::from(length_code & 0x0F) + 1,
        }
    }

    fn insert(&mut self, field: &Field) {
        let segment = self.state.segment[DS1];
        let first = self.state.general[IY];
        let ones = field.low_ones();
        let bits = (u32::from(self.state.general[AW]) & ones) << field.offset;
        let mask = ones << field.offset;
        self.replace_bits(segment, first, bits as u16, mask as u16);
        if field.reaches_second_word() {
            let second = first.wrapping_add(2);
            self.replace_bits(segment, second, (bits >> 16) as u16, (mask >> 16) as u16);
        }
        self.advance(IY, field);
    }

    fn replace_bits(&mut self, segment: u16, offset: u16, bits: u16, mask: u16) {
        let old = self.load::<u16>(segment, offset);
        self.store(segment, offset, old & !mask | bits);
    }

    fn extract(&mut self, field: &Field) {
        let segment = self.data_segment(DS0);
        let first = self.state.general[IX];
        let mut words = u32::from(self.load::<u16>(segment, first));
        if field.reaches_second_word() {
            let second = self.load::<u16>(segment, first.wrapping_add(2));
            words |= u32::from(second) << 16;
        }
        self.state.general[AW] = (words >> field.offset & field.low_ones()) as u16;
        self.advance(IX, field);
    }

    /// Moves on to the next field; the offset register is written after AW.
    fn advance(&mut self, pointer: usize, field: &Field) {
        if field.end() >= 16 {
            self.state.general[pointer] = self.state.general[pointer].wrapping_add(2);
        }
        let offset = (field.end() % 16) as u8;
        self.state.set_byte_register(field.offset_register, offset);
    }
}
