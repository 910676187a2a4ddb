//! Moves, loads and stores of the uPD8080AF; all data is in the segment DS0.

use crate::machine::Machine;
use crate::state::{BW, DS0};

impl Machine<'_> {
    pub(super) fn move_byte(&mut self, to: usize, from: usize) {
        let byte: u8 = self.get(self.place_8080(from));
        self.put(self.place_8080(to), byte);
    }

    pub(super) fn move_immediate(&mut self, to: usize) {
        let byte = self.fetch_byte();
        self.put(self.place_8080(to), byte);
    }

    pub(super) fn load_a(&mut self, offset: u16) {
        let byte = self.load(self.state.segment[DS0], offset);
        self.state.set_al(byte);
    }

    pub(super) fn store_a(&mut self, offset: u16) {
        self.store(self.state.segment[DS0], offset, self.state.al());
    }

    pub(super) fn load_hl(&mut self) {
        let offset = self.fetch_word();
        self.state.general[BW] = self.load(self.state.segment[DS0], offset);
    }

    pub(super) fn store_hl(&mut self) {
        let offset = self.fetch_word();
        self.store(self.state.segment[DS0], offset, self.state.general[BW]);
    }
}
