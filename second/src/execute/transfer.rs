//! Moves, exchanges, addresses and sign widening.

use crate::machine::{Machine, Outcome};
use crate::refusal::Refusal;
use crate::state::{AC, AW, BW, CY, DS0, DW, P, PS, S, Z};
use crate::width::Width;

impl Machine<'_> {
    pub(super) fn move_register_to_place<W: Width>(&mut self) {
        let operands = self.fetch_operands();
        self.put(operands.place, self.register::<W>(operands.reg));
    }

    pub(super) fn move_place_to_register<W: Width>(&mut self) {
        let operands = self.fetch_operands();
        let value = self.get::<W>(operands.place);
        self.set_register(operands.reg, value);
    }

    pub(super) fn move_immediate_to_place<W: Width>(&mut self) -> Outcome {
        let operands = self.fetch_operands();
        if operands.reg != 0 {
            return Err(Refusal::UnknownInstruction);
        }
        let value = self.fetch_immediate::<W>();
        self.put(operands.place, value);
        Ok(())
    }

    pub(super) fn move_immediate_to_register<W: Width>(&mut self, code: usize) {
        let value = self.fetch_immediate::<W>();
        self.set_register(code, value);
    }

    pub(super) fn move_direct_to_accumulator<W: Width>(&mut self) {
        let offset = self.fetch_word();
        let value = self.load::<W>(self.data_segment(DS0), offset);
        self.set_register(AW, value);
    }

    pub(super) fn move_accumulator_to_direct<W: Width>(&mut self) {
        let offset = self.fetch_word();
        self.store(self.data_segment(DS0), offset, self.register::<W>(AW));
    }

    pub(super) fn move_segment_to_place(&mut self) -> Outcome {
        let operands = self.fetch_operands();
        let segment = self.state.segment.get(operands.reg).copied();
        let word = segment.ok_or(Refusal::UnknownInstruction)?;
        self.put(operands.place, word);
        Ok(())
    }

    pub(super) fn move_place_to_segment(&mut self) -> Outcome {
        let operands = self.fetch_operands();
        if operands.reg > DS0 || operands.reg == PS {
            return Err(Refusal::UnknownInstruction);
        }
        self.state.segment[operands.reg] = self.get(operands.place);
        self.now.loads_segment = true;
        Ok(())
    }

    /// Loads a register and a segment register from a 32-bit operand.
    pub(super) fn load_pointer(&mut self, segment_code: usize) -> Outcome {
        let operands = self.fetch_operands();
        let (word, segment) = self.load_far_pointer(&operands)?;
        self.state.general[operands.reg] = word;
        self.state.segment[segment_code] = segment;
        Ok(())
    }

    pub(super) fn load_effective_address(&mut self) -> Outcome {
        let operands = self.fetch_operands();
        let (_, offset) = operands.address().ok_or(Refusal::UnknownInstruction)?;
        self.state.general[operands.reg] = offset;
        Ok(())
    }

    pub(super) fn exchange_place_and_register<W: Width>(&mut self) {
        let operands = self.fetch_operands();
        let from_place = self.get::<W>(operands.place);
        self.put(operands.place, self.register::<W>(operands.reg));
        self.set_register(operands.reg, from_place);
    }

    pub(super) fn translate(&mut self) {
        let offset = self.state.general[BW].wrapping_add(u16::from(self.state.al()));
        let byte = self.load(self.data_segment(DS0), offset);
        self.state.set_al(byte);
    }

    /// Takes S, Z, AC, P and CY from AH and leaves every other bit.
    pub(super) fn move_ah_to_psw(&mut self) {
        let taken = S | Z | AC | P | CY;
        self.state.psw = self.state.psw & !taken | u16::from(self.state.ah()) & taken;
    }

    pub(super) fn move_psw_to_ah(&mut self) {
        self.state.set_ah(self.state.psw as u8);
    }

    pub(super) fn widen_byte_to_word(&mut self) {
        self.state.general[AW] = self.state.al() as i8 as u16;
    }

    pub(super) fn widen_word_to_double_word(&mut self) {
        let negative = self.state.general[AW].sign();
        self.state.general[DW] = if negative { 0xFFFF } else { 0 };
    }
}
