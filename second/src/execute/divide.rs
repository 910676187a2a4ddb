//! Division; a quotient that does not fit traps and changes no other register.

use super::DIVISION_VECTOR;
use crate::machine::Machine;
use crate::operand::Place;
use crate::state::{AW, DW};
use crate::width::Width;

impl Machine<'_> {
    pub(super) fn divide_unsigned<W: Width>(&mut self, place: Place) {
        let dividend = self.double_accumulator::<W>();
        let divisor = self.get::<W>(place).number();
        match dividend.checked_div(divisor) {
            Some(quotient) if quotient >> W::BITS == 0 => {
                self.set_quotient_and_remainder::<W>(quotient, dividend % divisor);
            }
            _ => self.trap(DIVISION_VECTOR),
        }
    }

    pub(super) fn divide_signed<W: Width>(&mut self, place: Place) {
        let unsigned = self.double_accumulator::<W>();
        let dividend = if W::BYTES == 2 {
            i64::from(unsigned as i32)
        } else {
            i64::from(unsigned as i16)
        };
        let divisor = i64::from(self.get::<W>(place).signed());
        let largest = (1 << (W::BITS - 1)) - 1;
        match dividend.checked_div(divisor) {
            Some(quotient) if (-largest..=largest).contains(&quotient) => {
                let remainder = dividend % divisor;
                self.set_quotient_and_remainder::<W>(quotient as u32, remainder as u32);
            }
            _ => self.trap(DIVISION_VECTOR),
        }
    }

    /// AW for bytes; DW and AW for words.
    fn double_accumulator<W: Width>(&self) -> u32 {
        let low = u32::from(self.state.general[AW]);
        let high = u32::from(self.state.general[DW]);
        if W::BYTES == 2 {
            high << 16 | low
        } else {
            low
        }
    }

    fn set_quotient_and_remainder<W: Width>(&mut self, quotient: u32, remainder: u32) {
        if W::BYTES == 2 {
            self.state.general[AW] = quotient as u16;
            self.state.general[DW] = remainder as u16;
        } else {
            self.state.set_al(quotient as u8);
            self.state.set_ah(remainder as u8);
        }
    }
}
