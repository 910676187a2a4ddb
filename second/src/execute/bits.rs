//! Single bits: TEST1, CLR1, SET1 and NOT1, numbered by CL or an immediate.

use crate::machine::{Machine, Outcome};
use crate::operand::Place;
use crate::refusal::Refusal;
use crate::state::{CY, V, Z};
use crate::width::Width;

impl Machine<'_> {
    /// The low four bits of the second byte choose width, operation and source of the bit number.
    pub(super) fn bit_instruction(&mut self, second: u8) -> Outcome {
        let operands = self.fetch_operands();
        if operands.reg != 0 {
            return Err(Refusal::UnknownInstruction);
        }
        let number = if second & 8 == 0 {
            self.state.cl()
        } else {
            self.fetch_byte()
        };
        let operation = second >> 1 & 3;
        if second & 1 == 0 {
            self.change_bit::<u8>(operation, operands.place, number);
        } else {
            self.change_bit::<u16>(operation, operands.place, number);
        }
        Ok(())
    }

    fn change_bit<W: Width>(&mut self, operation: u8, place: Place, number: u8) {
        let bit = 1 << (u32::from(number) % W::BITS);
        let old = self.get::<W>(place).number();
        match operation {
            0 => {
                self.state.set_flag(Z, old & bit == 0);
                self.state.set_flag(CY, false);
                self.state.set_flag(V, false);
            }
            1 => self.put(place, W::low_bits(old & !bit)),
            2 => self.put(place, W::low_bits(old | bit)),
            _ => self.put(place, W::low_bits(old ^ bit)),
        }
    }
}
