//! Sums, differences, logic and rotates of the uPD8080AF, with its flags; V and the control flags keep.

use crate::execute::arithmetic::{flag_if, sign_zero_parity};
use crate::machine::Machine;
use crate::state::{AC, BW, CY, P, S, Z};

const FIVE_FLAGS: u16 = CY | AC | S | Z | P;

/// A sum and its two carries, out of bit 7 and out of bit 3.
fn sum(left: u8, right: u8, carry: bool) -> (u8, u16) {
    let (left, right, carry) = (u16::from(left), u16::from(right), u16::from(carry));
    let sum = left + right + carry;
    let low_sum = (left & 0x0F) + (right & 0x0F) + carry;
    let flags = flag_if(CY, sum > 0xFF) | flag_if(AC, low_sum > 0x0F);
    (sum as u8, flags)
}

/// The sum of left, not right and 1 less the borrow: AC is its carry out of bit 3, CY the carry that is missing.
fn difference(left: u8, right: u8, borrow: bool) -> (u8, u16) {
    let (result, flags) = sum(left, !right, !borrow);
    (result, flags ^ CY)
}

impl Machine<'_> {
    /// ADD ADC SUB SBB ANA XRA ORA CMP of A and a byte.
    pub(super) fn operate_8080(&mut self, operation: usize, right: u8) {
        const COMPARE: usize = 7;
        let left = self.state.al();
        let carry = self.state.flag(CY);
        let (result, flags) = match operation {
            0 => sum(left, right, false),
            1 => sum(left, right, carry),
            2 | COMPARE => difference(left, right, false),
            3 => difference(left, right, carry),
            4 => (left & right, flag_if(AC, (left | right) & 0x08 != 0)),
            5 => (left ^ right, 0),
            _ => (left | right, 0),
        };
        let flags = flags | sign_zero_parity(result);
        self.state.replace_flags(FIVE_FLAGS, flags);
        if operation != COMPARE {
            self.state.set_al(result);
        }
    }

    pub(super) fn increment_8080(&mut self, code: usize) {
        self.count(code, |old| sum(old, 1, false));
    }

    pub(super) fn decrement_8080(&mut self, code: usize) {
        self.count(code, |old| difference(old, 1, false));
    }

    /// INR and DCR keep CY.
    fn count(&mut self, code: usize, next: fn(u8) -> (u8, u16)) {
        let place = self.place_8080(code);
        let (result, flags) = next(self.get(place));
        let flags = flags & AC | sign_zero_parity(result);
        self.state.replace_flags(FIVE_FLAGS & !CY, flags);
        self.put(place, result);
    }

    /// INX and DCX change no flag.
    pub(super) fn add_to_pair(&mut self, pair: usize, number: u16) {
        self.state.general[pair] = self.state.general[pair].wrapping_add(number);
    }

    /// DAD changes CY alone.
    pub(super) fn add_pair_to_hl(&mut self, pair: usize) {
        let (sum, carry) = self.state.general[BW].overflowing_add(self.state.general[pair]);
        self.state.general[BW] = sum;
        self.state.set_flag(CY, carry);
    }

    /// DAA: AC is the carry of the low digit's adjustment, which a half carry from before does not set.
    pub(super) fn adjust_a(&mut self) {
        let low_digit_exceeds = self.state.al() & 0x0F > 9;
        self.adjust_packed_after_add();
        self.state.set_flag(AC, low_digit_exceeds);
    }

    /// RLC RRC RAL RAR change CY alone.
    pub(super) fn rotate_a(&mut self, kind: usize) {
        let old = self.state.al();
        let carry = u8::from(self.state.flag(CY));
        let (result, bit_out) = match kind {
            0 => (old.rotate_left(1), old >> 7),
            1 => (old.rotate_right(1), old & 1),
            2 => (old << 1 | carry, old >> 7),
            _ => (old >> 1 | carry << 7, old & 1),
        };
        self.state.set_al(result);
        self.state.set_flag(CY, bit_out != 0);
    }
}
