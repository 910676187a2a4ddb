//! Branches, calls, returns and the traps that instructions take by themselves.

use super::{BREAK_VECTOR, INDEX_VECTOR, OVERFLOW_VECTOR};
use crate::machine::{Machine, Outcome};
use crate::operand::{Operands, Place};
use crate::refusal::Refusal;
use crate::state::{CW, CY, P, PS, S, SP, V, Z};

impl Machine<'_> {
    pub(super) fn branch_if(&mut self, taken: bool) {
        let distance = self.fetch_signed_byte();
        if taken {
            self.now.next_pc = self.now.next_pc.wrapping_add(distance);
        }
    }

    /// The low four bits of the first byte name the condition; its lowest bit turns it round.
    pub(super) fn branch_on_flags(&mut self, first: u8) {
        let state = &self.state;
        let less = state.flag(S) != state.flag(V);
        let condition = match first >> 1 & 7 {
            0 => state.flag(V),
            1 => state.flag(CY),
            2 => state.flag(Z),
            3 => state.flag(CY) || state.flag(Z),
            4 => state.flag(S),
            5 => state.flag(P),
            6 => less,
            _ => less || state.flag(Z),
        };
        self.branch_if(condition == (first & 1 == 0));
    }

    /// DBNZNE, DBNZE and DBNZ: lowers CW, then looks at it and, but for DBNZ, at Z.
    pub(super) fn count_down_and_branch(&mut self, first: u8) {
        let count = self.state.general[CW].wrapping_sub(1);
        self.state.general[CW] = count;
        let flags_allow = match first {
            0xE0 => !self.state.flag(Z),
            0xE1 => self.state.flag(Z),
            _ => true,
        };
        self.branch_if(count != 0 && flags_allow);
    }

    pub(super) fn branch_near(&mut self) {
        let distance = self.fetch_word();
        self.now.next_pc = self.now.next_pc.wrapping_add(distance);
    }

    pub(super) fn branch_far(&mut self) {
        let pc = self.fetch_word();
        self.state.segment[PS] = self.fetch_word();
        self.now.next_pc = pc;
    }

    pub(super) fn call_near(&mut self) {
        let distance = self.fetch_word();
        let after = self.now.next_pc;
        self.push(after);
        self.now.next_pc = after.wrapping_add(distance);
    }

    pub(super) fn call_far(&mut self) {
        let pc = self.fetch_word();
        let ps = self.fetch_word();
        self.call_to(pc, ps);
    }

    fn call_to(&mut self, pc: u16, ps: u16) {
        self.push(self.state.segment[PS]);
        self.state.segment[PS] = ps;
        self.push(self.now.next_pc);
        self.now.next_pc = pc;
    }

    pub(super) fn return_near(&mut self) {
        self.now.next_pc = self.pop();
    }

    pub(super) fn return_far(&mut self) {
        self.return_near();
        self.state.segment[PS] = self.pop();
    }

    pub(super) fn return_from_interrupt(&mut self) {
        self.return_far();
        self.pop_psw();
    }

    pub(super) fn return_near_and_drop(&mut self) {
        let dropped = self.fetch_word();
        self.return_near();
        self.drop_from_stack(dropped);
    }

    pub(super) fn return_far_and_drop(&mut self) {
        let dropped = self.fetch_word();
        self.return_far();
        self.drop_from_stack(dropped);
    }

    fn drop_from_stack(&mut self, bytes: u16) {
        self.state.general[SP] = self.state.general[SP].wrapping_add(bytes);
    }

    /// The words through the first byte FF: INC, DEC, CALL, BR and PUSH.
    pub(super) fn word_group(&mut self) -> Outcome {
        let operands = self.fetch_operands();
        match operands.reg {
            0 => self.increment::<u16>(operands.place),
            1 => self.decrement::<u16>(operands.place),
            2 => self.call_through(operands.place),
            3 => {
                let (pc, ps) = self.load_far_pointer(&operands)?;
                self.call_to(pc, ps);
            }
            4 => self.now.next_pc = self.get(operands.place),
            5 => {
                let (pc, ps) = self.load_far_pointer(&operands)?;
                self.state.segment[PS] = ps;
                self.now.next_pc = pc;
            }
            6 => self.push_place(operands.place),
            _ => return Err(Refusal::UnknownInstruction),
        }
        Ok(())
    }

    fn call_through(&mut self, place: Place) {
        match place {
            Place::Register(code) => {
                self.push(self.now.next_pc);
                // read after the push, so that SP itself is taken lowered
                self.now.next_pc = self.state.general[code];
            }
            Place::Memory { segment, offset } => {
                let pc = self.load(segment, offset);
                self.push(self.now.next_pc);
                self.now.next_pc = pc;
            }
        }
    }

    fn push_place(&mut self, place: Place) {
        match place {
            Place::Register(code) => self.push_register(code),
            Place::Memory { segment, offset } => {
                let word = self.load(segment, offset);
                self.push(word);
            }
        }
    }

    /// The two words of a 32-bit operand, which only memory can hold.
    pub(super) fn load_far_pointer(&mut self, operands: &Operands) -> Result<(u16, u16), Refusal> {
        let (segment, offset) = operands.address().ok_or(Refusal::UnknownInstruction)?;
        let first = self.load(segment, offset);
        let second = self.load(segment, offset.wrapping_add(2));
        Ok((first, second))
    }

    pub(super) fn break_to_three(&mut self) {
        self.trap(BREAK_VECTOR);
    }

    pub(super) fn break_to_immediate(&mut self) {
        let vector = self.fetch_byte();
        self.trap(vector);
    }

    pub(super) fn break_on_overflow(&mut self) {
        if self.state.flag(V) {
            self.trap(OVERFLOW_VECTOR);
        }
    }

    /// Traps when the register lies outside the two bounds, all signed.
    pub(super) fn check_index(&mut self) -> Outcome {
        let operands = self.fetch_operands();
        let (lowest, highest) = self.load_far_pointer(&operands)?;
        let index = self.state.general[operands.reg] as i16;
        if index < lowest as i16 || index > highest as i16 {
            self.trap(INDEX_VECTOR);
        }
        Ok(())
    }
}
