//! The instructions that change the mode; they use the native stack, and none of them is a trap.

use crate::machine::{Machine, Outcome};
use crate::refusal::Refusal;
use crate::state::MODE;

impl Machine<'_> {
    /// BRKEM, a native instruction: IE and BRK stay as they are.
    pub(in crate::execute) fn break_for_emulation(&mut self) {
        let vector = self.fetch_byte();
        self.go_to_vector(vector, |state| {
            state.set_flag(MODE, false);
            state.may_write_mode = true;
        });
    }

    /// CALLN and RETEM, the two instructions that begin with ED.
    pub(super) fn change_mode(&mut self) -> Outcome {
        match self.fetch_byte() {
            0xED => self.call_native(),
            0xFD => self.return_from_emulation(),
            _ => return Err(Refusal::UnknownInstruction),
        }
        Ok(())
    }

    fn call_native(&mut self) {
        let vector = self.fetch_byte();
        self.go_to_vector(vector, |state| state.set_flag(MODE, true));
    }

    /// Native mode follows whatever the popped PSW says.
    fn return_from_emulation(&mut self) {
        self.return_from_interrupt();
        self.state.set_flag(MODE, true);
        self.state.may_write_mode = false;
    }
}
