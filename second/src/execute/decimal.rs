//! Decimal digits: adjustments, conversions, strings and digit rotations.

use crate::machine::{Machine, Outcome};
use crate::refusal::Refusal;
use crate::state::{AC, CY, DS0, DS1, IX, IY, Z};

/// The second byte of the two conversions.
const BASE: u8 = 10;

/// A byte between its binary operation and its adjustment.
#[derive(Clone, Copy)]
struct Digits {
    byte: u8,
    half_carry: bool,
    carry: bool,
}

impl Digits {
    fn sum(left: u8, right: u8, carry: bool) -> Digits {
        let low_sum = (left & 0x0F) + (right & 0x0F) + u8::from(carry);
        let sum = u16::from(left) + u16::from(right) + u16::from(carry);
        Digits {
            byte: sum as u8,
            half_carry: low_sum > 0x0F,
            carry: sum > 0xFF,
        }
    }

    fn difference(left: u8, right: u8, borrow: bool) -> Digits {
        let taken = u16::from(right) + u16::from(borrow);
        let low_taken = (right & 0x0F) + u8::from(borrow);
        Digits {
            byte: u16::from(left).wrapping_sub(taken) as u8,
            half_carry: left & 0x0F < low_taken,
            carry: u16::from(left) < taken,
        }
    }

    fn low_digit_needs_adjustment(self) -> bool {
        self.byte & 0x0F > 9 || self.half_carry
    }

    fn adjusted_after_add(mut self) -> Digits {
        if self.low_digit_needs_adjustment() {
            let (byte, carry) = self.byte.overflowing_add(0x06);
            self.byte = byte;
            self.half_carry = true;
            self.carry |= carry;
        }
        if self.byte > 0x9F || self.carry {
            self.byte = self.byte.wrapping_add(0x60);
            self.carry = true;
        }
        self
    }

    fn adjusted_after_subtract(mut self) -> Digits {
        if self.low_digit_needs_adjustment() {
            let (byte, borrow) = self.byte.overflowing_sub(0x06);
            self.byte = byte;
            self.half_carry = true;
            self.carry |= borrow;
        }
        if self.byte > 0x9F || self.carry {
            self.byte = self.byte.wrapping_sub(0x60);
            self.carry = true;
        }
        self
    }
}

/// Where the bytes of a string operation go.
#[derive(Clone, Copy, PartialEq, Eq)]
enum Results {
    Stored,
    OnlyCompared,
}

impl Machine<'_> {
    fn accumulator_digits(&self) -> Digits {
        Digits {
            byte: self.state.al(),
            half_carry: self.state.flag(AC),
            carry: self.state.flag(CY),
        }
    }

    pub(super) fn adjust_packed_after_add(&mut self) {
        let adjusted = self.accumulator_digits().adjusted_after_add();
        self.take_packed(adjusted);
    }

    pub(super) fn adjust_packed_after_subtract(&mut self) {
        let adjusted = self.accumulator_digits().adjusted_after_subtract();
        self.take_packed(adjusted);
    }

    fn take_packed(&mut self, digits: Digits) {
        self.state.set_al(digits.byte);
        self.state.set_flag(AC, digits.half_carry);
        self.state.set_flag(CY, digits.carry);
        self.set_sign_zero_parity(digits.byte);
    }

    pub(super) fn adjust_unpacked_after_add(&mut self) {
        let adjusting = self.accumulator_digits().low_digit_needs_adjustment();
        if adjusting {
            self.state.set_al(self.state.al().wrapping_add(6));
            self.state.set_ah(self.state.ah().wrapping_add(1));
        }
        self.finish_unpacked(adjusting);
    }

    pub(super) fn adjust_unpacked_after_subtract(&mut self) {
        let adjusting = self.accumulator_digits().low_digit_needs_adjustment();
        if adjusting {
            self.state.set_al(self.state.al().wrapping_sub(6));
            self.state.set_ah(self.state.ah().wrapping_sub(1));
        }
        self.finish_unpacked(adjusting);
    }

    fn finish_unpacked(&mut self, adjusted: bool) {
        self.state.set_flag(AC, adjusted);
        self.state.set_flag(CY, adjusted);
        self.state.set_al(self.state.al() & 0x0F);
    }

    pub(super) fn convert_binary_to_decimal(&mut self) -> Outcome {
        self.fetch_base()?;
        let al = self.state.al();
        self.state.set_ah(al / BASE);
        self.state.set_al(al % BASE);
        self.set_sign_zero_parity(self.state.al());
        Ok(())
    }

    pub(super) fn convert_decimal_to_binary(&mut self) -> Outcome {
        self.fetch_base()?;
        let tens = self.state.ah().wrapping_mul(BASE);
        self.state.set_al(tens.wrapping_add(self.state.al()));
        self.state.set_ah(0);
        self.set_sign_zero_parity(self.state.al());
        Ok(())
    }

    fn fetch_base(&mut self) -> Outcome {
        if self.fetch_byte() == BASE {
            Ok(())
        } else {
            Err(Refusal::UnknownInstruction)
        }
    }

    pub(super) fn add_strings(&mut self) -> Outcome {
        self.over_strings(Results::Stored, |left, right, carry| {
            Digits::sum(left, right, carry).adjusted_after_add()
        })
    }

    pub(super) fn subtract_strings(&mut self) -> Outcome {
        self.over_strings(Results::Stored, |left, right, carry| {
            Digits::difference(left, right, carry).adjusted_after_subtract()
        })
    }

    pub(super) fn compare_strings(&mut self) -> Outcome {
        self.over_strings(Results::OnlyCompared, |left, right, carry| {
            Digits::difference(left, right, carry).adjusted_after_subtract()
        })
    }

    /// Works from the lowest address up, each byte stored before the next is read.
    fn over_strings(&mut self, results: Results, operation: fn(u8, u8, bool) -> Digits) -> Outcome {
        let length = self.state.cl().div_ceil(2);
        let (mut carry, mut all_zero) = (false, true);
        for index in 0..u16::from(length) {
            let target = self.state.general[IY].wrapping_add(index);
            let source = self.state.general[IX].wrapping_add(index);
            let left = self.load(self.state.segment[DS1], target);
            let right = self.load(self.data_segment(DS0), source);
            let digits = operation(left, right, carry);
            carry = digits.carry;
            all_zero &= digits.byte == 0;
            if results == Results::Stored {
                self.store(self.state.segment[DS1], target, digits.byte);
            }
        }
        self.state.set_flag(CY, carry);
        self.state.set_flag(Z, all_zero);
        Ok(())
    }

    pub(super) fn rotate_digit_left(&mut self) -> Outcome {
        self.rotate_digit(|operand, digit| (operand << 4 | digit, operand >> 4))
    }

    pub(super) fn rotate_digit_right(&mut self) -> Outcome {
        self.rotate_digit(|operand, digit| (digit << 4 | operand >> 4, operand & 0x0F))
    }

    /// Gives the operand and AL's low digit their new values; AL keeps its high digit.
    fn rotate_digit(&mut self, rotation: fn(u8, u8) -> (u8, u8)) -> Outcome {
        let operands = self.fetch_operands();
        if operands.reg != 0 {
            return Err(Refusal::UnknownInstruction);
        }
        let al = self.state.al();
        let old = self.get::<u8>(operands.place);
        let (operand, digit) = rotation(old, al & 0x0F);
        self.put(operands.place, operand);
        // written last, so that AL as the operand keeps its high digit too
        self.state.set_al(al & 0xF0 | digit);
        Ok(())
    }
}
