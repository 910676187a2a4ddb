//! Multiplication; CY and V tell that the upper half is needed.

use crate::machine::Machine;
use crate::operand::Place;
use crate::state::{AW, CY, DW, V};
use crate::width::Width;

impl Machine<'_> {
    pub(super) fn multiply_unsigned<W: Width>(&mut self, place: Place) {
        let left = self.register::<W>(AW).number();
        let product = left * self.get::<W>(place).number();
        self.set_double_accumulator::<W>(product);
        self.set_carry_and_overflow(product >> W::BITS != 0);
    }

    pub(super) fn multiply_signed<W: Width>(&mut self, place: Place) {
        let left = self.register::<W>(AW).signed();
        let product = left * self.get::<W>(place).signed();
        self.set_double_accumulator::<W>(product as u32);
        let low_half = W::low_bits(product as u32);
        self.set_carry_and_overflow(low_half.signed() != product);
    }

    pub(super) fn multiply_by_immediate_word(&mut self) {
        let operands = self.fetch_operands();
        let factor = self.fetch_word();
        self.multiply_into_register(operands.reg, operands.place, factor);
    }

    pub(super) fn multiply_by_immediate_byte(&mut self) {
        let operands = self.fetch_operands();
        let factor = self.fetch_signed_byte();
        self.multiply_into_register(operands.reg, operands.place, factor);
    }

    fn multiply_into_register(&mut self, reg: usize, place: Place, factor: u16) {
        let product = self.get::<u16>(place).signed() * factor.signed();
        let low_half = product as u16;
        self.state.general[reg] = low_half;
        self.set_carry_and_overflow(low_half.signed() != product);
    }

    fn set_carry_and_overflow(&mut self, on: bool) {
        self.state.set_flag(CY, on);
        self.state.set_flag(V, on);
    }

    /// AW for bytes; DW and AW for words.
    fn set_double_accumulator<W: Width>(&mut self, number: u32) {
        self.state.general[AW] = number as u16;
        if W::BYTES == 2 {
            self.state.general[DW] = (number >> 16) as u16;
        }
    }
}
