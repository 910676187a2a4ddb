//! Pushes, pops and stack frames.

use crate::machine::{Machine, Outcome};
use crate::refusal::Refusal;
use crate::state::{AW, BP, BW, CW, DW, IX, IY, SP, SS};

impl Machine<'_> {
    /// Lowers SP before the register is read, so that SP itself is stored lowered.
    pub(super) fn push_register(&mut self, code: usize) {
        let top = self.state.general[SP].wrapping_sub(2);
        self.state.general[SP] = top;
        self.store(self.state.segment[SS], top, self.state.general[code]);
    }

    /// Writes the register after SP was raised, so that SP itself takes the popped word.
    pub(super) fn pop_register(&mut self, code: usize) {
        self.state.general[code] = self.pop();
    }

    pub(super) fn pop_segment(&mut self, code: usize) {
        self.state.segment[code] = self.pop();
        self.now.loads_segment = true;
    }

    pub(super) fn pop_psw(&mut self) {
        let word = self.pop();
        self.state.load_psw(word);
    }

    pub(super) fn pop_place(&mut self) -> Outcome {
        let operands = self.fetch_operands();
        if operands.reg != 0 {
            return Err(Refusal::UnknownInstruction);
        }
        let word = self.pop();
        self.put(operands.place, word);
        Ok(())
    }

    pub(super) fn push_immediate_word(&mut self) {
        let word = self.fetch_word();
        self.push(word);
    }

    pub(super) fn push_immediate_byte(&mut self) {
        let word = self.fetch_signed_byte();
        self.push(word);
    }

    pub(super) fn push_all_registers(&mut self) {
        let before = self.state.general;
        for word in before {
            self.push(word);
        }
    }

    pub(super) fn pop_all_registers(&mut self) {
        for code in [IY, IX, BP] {
            self.state.general[code] = self.pop();
        }
        self.pop();
        for code in [BW, DW, CW, AW] {
            self.state.general[code] = self.pop();
        }
    }

    pub(super) fn prepare_frame(&mut self) {
        let dynamics = self.fetch_word();
        let level = self.fetch_byte();
        self.push(self.state.general[BP]);
        let frame = self.state.general[SP];
        if level > 0 {
            for _ in 1..level {
                self.state.general[BP] = self.state.general[BP].wrapping_sub(2);
                let pointer = self.load(self.state.segment[SS], self.state.general[BP]);
                self.push(pointer);
            }
            self.push(frame);
        }
        self.state.general[BP] = frame;
        self.state.general[SP] = self.state.general[SP].wrapping_sub(dynamics);
    }

    pub(super) fn dispose_frame(&mut self) {
        self.state.general[SP] = self.state.general[BP];
        self.state.general[BP] = self.pop();
    }
}
