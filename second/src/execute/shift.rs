//! Shifts and rotations by one, by CL and by an immediate count of 0 to 255.

use crate::machine::{Machine, Outcome};
use crate::operand::Operands;
use crate::refusal::Refusal;
use crate::state::{CY, V};
use crate::width::Width;

#[derive(Clone, Copy, PartialEq, Eq)]
enum Shift {
    RotateLeft,
    RotateRight,
    RotateLeftThroughCarry,
    RotateRightThroughCarry,
    Left,
    Right,
    RightWithSign,
}

impl Shift {
    fn of(code: usize) -> Result<Shift, Refusal> {
        match code {
            0 => Ok(Shift::RotateLeft),
            1 => Ok(Shift::RotateRight),
            2 => Ok(Shift::RotateLeftThroughCarry),
            3 => Ok(Shift::RotateRightThroughCarry),
            4 => Ok(Shift::Left),
            5 => Ok(Shift::Right),
            7 => Ok(Shift::RightWithSign),
            _ => Err(Refusal::UnknownInstruction),
        }
    }

    fn is_rotation(self) -> bool {
        !matches!(self, Shift::Left | Shift::Right | Shift::RightWithSign)
    }

    fn goes_left(self) -> bool {
        matches!(
            self,
            Shift::RotateLeft | Shift::RotateLeftThroughCarry | Shift::Left
        )
    }

    /// The result and the last bit that went out, for a count of at least one.
    fn apply<W: Width>(self, value: W, count: u32, carry: bool) -> (W, bool) {
        let number = value.number();
        let width = W::BITS;
        match self {
            Shift::RotateLeft => {
                let turned = rotate_left(number, width, count % width);
                (W::low_bits(turned), turned & 1 != 0)
            }
            Shift::RotateRight => {
                let turned = W::low_bits(rotate_left(number, width, width - count % width));
                (turned, turned.sign())
            }
            Shift::RotateLeftThroughCarry => {
                let ring = number | u32::from(carry) << width;
                let turned = rotate_left(ring, width + 1, count % (width + 1));
                (W::low_bits(turned), turned >> width != 0)
            }
            Shift::RotateRightThroughCarry => {
                let ring = number | u32::from(carry) << width;
                let turned = rotate_left(ring, width + 1, width + 1 - count % (width + 1));
                (W::low_bits(turned), turned >> width != 0)
            }
            Shift::Left => {
                // past the width and one more, no bit of the old value is left
                let moved = u64::from(number) << count.min(width + 1);
                (W::low_bits(moved as u32), moved >> width & 1 != 0)
            }
            Shift::Right => {
                let count = count.min(width + 1);
                let out = number >> (count - 1) & 1 != 0;
                (W::low_bits(number >> count), out)
            }
            Shift::RightWithSign => {
                let count = count.min(width);
                let out = value.signed() >> (count - 1) & 1 != 0;
                (W::low_bits((value.signed() >> count) as u32), out)
            }
        }
    }
}

/// Turns the low bits of a number round; the places are at most the width.
fn rotate_left(number: u32, width: u32, places: u32) -> u32 {
    let twice = u64::from(number) << places;
    let ring = (1u64 << width) - 1;
    (twice & ring | twice >> width) as u32
}

impl Machine<'_> {
    pub(super) fn shift_by_one<W: Width>(&mut self) -> Outcome {
        let operands = self.fetch_operands();
        let shift = Shift::of(operands.reg)?;
        let result = self.shift::<W>(shift, &operands, 1);
        let below_sign = W::low_bits(result.number() << 1).sign();
        let reference = if shift.goes_left() {
            self.state.flag(CY)
        } else {
            below_sign
        };
        self.state.set_flag(V, result.sign() != reference);
        Ok(())
    }

    pub(super) fn shift_by_cl<W: Width>(&mut self) -> Outcome {
        let operands = self.fetch_operands();
        let shift = Shift::of(operands.reg)?;
        let count = self.state.cl();
        self.shift::<W>(shift, &operands, count);
        Ok(())
    }

    pub(super) fn shift_by_immediate<W: Width>(&mut self) -> Outcome {
        let operands = self.fetch_operands();
        let shift = Shift::of(operands.reg)?;
        let count = self.fetch_byte();
        self.shift::<W>(shift, &operands, count);
        Ok(())
    }

    /// Reads, shifts and writes back, also for count 0; gives the result.
    fn shift<W: Width>(&mut self, shift: Shift, operands: &Operands, count: u8) -> W {
        let old = self.get::<W>(operands.place);
        if count == 0 {
            self.put(operands.place, old);
            return old;
        }
        let (result, carry) = shift.apply(old, u32::from(count), self.state.flag(CY));
        self.state.set_flag(CY, carry);
        if !shift.is_rotation() {
            self.set_sign_zero_parity(result);
        }
        self.put(operands.place, result);
        result
    }
}
