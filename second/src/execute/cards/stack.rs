//! The stack of the 8080 mode, which is at DS0:BP.

use crate::machine::Machine;
use crate::state::{AC, BP, BW, CY, DS0, P, S, Z};

impl Machine<'_> {
    pub(super) fn push_8080(&mut self, word: u16) {
        self.state.general[BP] = self.state.general[BP].wrapping_sub(2);
        self.store(self.state.segment[DS0], self.state.general[BP], word);
    }

    pub(super) fn pop_8080(&mut self) -> u16 {
        let word = self.load(self.state.segment[DS0], self.state.general[BP]);
        self.state.general[BP] = self.state.general[BP].wrapping_add(2);
        word
    }

    pub(super) fn push_a_and_flags(&mut self) {
        self.push_8080(u16::from_le_bytes([self.state.psw as u8, self.state.al()]));
    }

    /// Takes A and five flags; neither the mode nor another bit of PSW.
    pub(super) fn pop_a_and_flags(&mut self) {
        let [flags, a] = self.pop_8080().to_le_bytes();
        let taken = S | Z | AC | P | CY;
        self.state.replace_flags(taken, u16::from(flags) & taken);
        self.state.set_al(a);
    }

    pub(super) fn exchange_hl_and_top(&mut self) {
        let (segment, offset) = (self.state.segment[DS0], self.state.general[BP]);
        let top = self.load(segment, offset);
        self.store(segment, offset, self.state.general[BW]);
        self.state.general[BW] = top;
    }
}
