//! Jumps, calls and returns of the uPD8080AF.

use crate::machine::Machine;
use crate::state::{CY, P, S, Z};

impl Machine<'_> {
    /// NZ Z NC C PO PE P M.
    pub(super) fn condition_holds(&self, code: usize) -> bool {
        let flag = [Z, CY, P, S][code >> 1];
        self.state.flag(flag) == (code & 1 != 0)
    }

    pub(super) fn jump_if(&mut self, taken: bool) {
        let target = self.fetch_word();
        if taken {
            self.now.next_pc = target;
        }
    }

    pub(super) fn call_8080_if(&mut self, taken: bool) {
        let target = self.fetch_word();
        if taken {
            self.push_8080(self.now.next_pc);
            self.now.next_pc = target;
        }
    }

    pub(super) fn return_8080_if(&mut self, taken: bool) {
        if taken {
            self.now.next_pc = self.pop_8080();
        }
    }

    /// RST: a call to eight times its number.
    pub(super) fn restart(&mut self, number: usize) {
        self.push_8080(self.now.next_pc);
        self.now.next_pc = 8 * number as u16;
    }
}
