//! Addition, subtraction, comparison, logic, and the flags that results set.

use crate::machine::{Machine, Outcome};
use crate::operand::Place;
use crate::refusal::Refusal;
use crate::state::{AC, AW, CY, P, S, V, Z};
use crate::width::Width;

/// The eight operations, in the order of their codes.
#[derive(Clone, Copy, PartialEq, Eq)]
pub(crate) enum Operation {
    Add,
    Or,
    AddCarry,
    SubtractCarry,
    And,
    Subtract,
    Xor,
    Compare,
}

impl Operation {
    fn of(code: usize) -> Operation {
        [
            Operation::Add,
            Operation::Or,
            Operation::AddCarry,
            Operation::SubtractCarry,
            Operation::And,
            Operation::Subtract,
            Operation::Xor,
            Operation::Compare,
        ][code]
    }
}

pub(super) fn flag_if(flag: u16, on: bool) -> u16 {
    if on {
        flag
    } else {
        0
    }
}

pub(super) fn sign_zero_parity<W: Width>(result: W) -> u16 {
    let low_byte = result.number() as u8;
    flag_if(S, result.sign())
        | flag_if(Z, result.number() == 0)
        | flag_if(P, low_byte.count_ones() & 1 == 0)
}

impl Machine<'_> {
    pub(super) fn place_and_register<W: Width>(&mut self, operation: Operation) {
        let operands = self.fetch_operands();
        let right = self.register::<W>(operands.reg);
        self.operate(operation, operands.place, right);
    }

    pub(super) fn register_and_place<W: Width>(&mut self, operation: Operation) {
        let operands = self.fetch_operands();
        let right = self.get::<W>(operands.place);
        self.operate(operation, Place::Register(operands.reg), right);
    }

    pub(super) fn accumulator_and_immediate<W: Width>(&mut self, operation: Operation) {
        let right = self.fetch_immediate::<W>();
        self.operate(operation, Place::Register(AW), right);
    }

    pub(super) fn place_and_immediate<W: Width>(&mut self) {
        let operands = self.fetch_operands();
        let right = self.fetch_immediate::<W>();
        self.operate(Operation::of(operands.reg), operands.place, right);
    }

    pub(super) fn place_and_signed_byte(&mut self) {
        let operands = self.fetch_operands();
        let right = self.fetch_signed_byte();
        self.operate(Operation::of(operands.reg), operands.place, right);
    }

    fn operate<W: Width>(&mut self, operation: Operation, place: Place, right: W) {
        let left = self.get::<W>(place);
        let carry = u32::from(self.state.flag(CY));
        let result = match operation {
            Operation::Add => self.add(left, right, 0),
            Operation::AddCarry => self.add(left, right, carry),
            Operation::Subtract | Operation::Compare => self.subtract(left, right, 0),
            Operation::SubtractCarry => self.subtract(left, right, carry),
            Operation::And => self.logic(left.number() & right.number()),
            Operation::Or => self.logic(left.number() | right.number()),
            Operation::Xor => self.logic(left.number() ^ right.number()),
        };
        if operation != Operation::Compare {
            self.put(place, result);
        }
    }

    pub(super) fn add<W: Width>(&mut self, left: W, right: W, carry: u32) -> W {
        let (a, b) = (left.number(), right.number());
        let sum = a + b + carry;
        let result = W::low_bits(sum);
        let overflow = W::low_bits((a ^ sum) & (b ^ sum)).sign();
        let flags = flag_if(CY, sum >> W::BITS != 0)
            | flag_if(AC, (a ^ b ^ sum) & 0x10 != 0)
            | flag_if(V, overflow)
            | sign_zero_parity(result);
        self.state.replace_flags(CY | AC | V | S | Z | P, flags);
        result
    }

    pub(super) fn subtract<W: Width>(&mut self, left: W, right: W, borrow: u32) -> W {
        let (a, b) = (left.number(), right.number());
        let difference = a.wrapping_sub(b).wrapping_sub(borrow);
        let result = W::low_bits(difference);
        let overflow = W::low_bits((a ^ b) & (a ^ difference)).sign();
        let flags = flag_if(CY, a < b + borrow)
            | flag_if(AC, (a ^ b ^ difference) & 0x10 != 0)
            | flag_if(V, overflow)
            | sign_zero_parity(result);
        self.state.replace_flags(CY | AC | V | S | Z | P, flags);
        result
    }

    fn logic<W: Width>(&mut self, number: u32) -> W {
        let result = W::low_bits(number);
        self.state
            .replace_flags(CY | V | S | Z | P, sign_zero_parity(result));
        result
    }

    pub(super) fn set_sign_zero_parity<W: Width>(&mut self, result: W) {
        self.state
            .replace_flags(S | Z | P, sign_zero_parity(result));
    }

    pub(super) fn test_place_and_register<W: Width>(&mut self) {
        let operands = self.fetch_operands();
        let left = self.get::<W>(operands.place).number();
        let right = self.register::<W>(operands.reg).number();
        self.logic::<W>(left & right);
    }

    pub(super) fn test_accumulator_and_immediate<W: Width>(&mut self) {
        let right = self.fetch_immediate::<W>().number();
        let left = self.register::<W>(AW).number();
        self.logic::<W>(left & right);
    }

    pub(super) fn increment_register(&mut self, code: usize) {
        self.increment::<u16>(Place::Register(code));
    }

    pub(super) fn decrement_register(&mut self, code: usize) {
        self.decrement::<u16>(Place::Register(code));
    }

    /// Adds one; the carry keeps its old value.
    pub(super) fn increment<W: Width>(&mut self, place: Place) {
        let carry = self.state.flag(CY);
        let old = self.get::<W>(place);
        let result = self.add(old, W::low_bits(1), 0);
        self.state.set_flag(CY, carry);
        self.put(place, result);
    }

    /// Takes one away; the carry keeps its old value.
    pub(super) fn decrement<W: Width>(&mut self, place: Place) {
        let carry = self.state.flag(CY);
        let old = self.get::<W>(place);
        let result = self.subtract(old, W::low_bits(1), 0);
        self.state.set_flag(CY, carry);
        self.put(place, result);
    }

    pub(super) fn byte_group(&mut self) -> Outcome {
        let operands = self.fetch_operands();
        match operands.reg {
            0 => self.increment::<u8>(operands.place),
            1 => self.decrement::<u8>(operands.place),
            _ => return Err(Refusal::UnknownInstruction),
        }
        Ok(())
    }

    pub(super) fn one_operand_group<W: Width>(&mut self) -> Outcome {
        let operands = self.fetch_operands();
        let place = operands.place;
        match operands.reg {
            0 => self.test_place_and_immediate::<W>(place),
            2 => self.complement::<W>(place),
            3 => self.negate::<W>(place),
            4 => self.multiply_unsigned::<W>(place),
            5 => self.multiply_signed::<W>(place),
            6 => self.divide_unsigned::<W>(place),
            7 => self.divide_signed::<W>(place),
            _ => return Err(Refusal::UnknownInstruction),
        }
        Ok(())
    }

    fn test_place_and_immediate<W: Width>(&mut self, place: Place) {
        let right = self.fetch_immediate::<W>().number();
        let left = self.get::<W>(place).number();
        self.logic::<W>(left & right);
    }

    fn complement<W: Width>(&mut self, place: Place) {
        let old = self.get::<W>(place).number();
        self.put(place, W::low_bits(!old));
    }

    fn negate<W: Width>(&mut self, place: Place) {
        let old = self.get::<W>(place);
        let result = self.subtract(W::low_bits(0), old, 0);
        self.put(place, result);
    }
}
