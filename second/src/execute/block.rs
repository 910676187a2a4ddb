//! Block primitives, their repeats, and port input and output.

use crate::machine::{GoOnWhile, Machine, Outcome};
use crate::refusal::Refusal;
use crate::state::{AW, CW, CY, DIR, DS0, DS1, DW, IX, IY, Z};
use crate::width::Width;

/// What a repeat looks at after an element.
#[derive(Clone, Copy, PartialEq, Eq)]
pub(super) enum Element {
    Moved,
    Compared,
}

impl<'a> Machine<'a> {
    /// Does one element; under a repeat prefix PC stays until the repeat ends.
    pub(super) fn repeated(
        &mut self,
        primitive: fn(&mut Machine<'a>) -> Result<Element, Refusal>,
    ) -> Outcome {
        let Some(repeat) = self.now.repeat else {
            return primitive(self).map(|_| ());
        };
        if self.state.general[CW] == 0 {
            return Ok(());
        }
        let element = primitive(self)?;
        self.state.general[CW] -= 1;
        let flags_allow = element == Element::Moved || self.goes_on(repeat);
        if self.state.general[CW] != 0 && flags_allow {
            self.now.next_pc = self.state.pc;
        }
        Ok(())
    }

    fn goes_on(&self, repeat: GoOnWhile) -> bool {
        match repeat {
            GoOnWhile::Zero => self.state.flag(Z),
            GoOnWhile::NotZero => !self.state.flag(Z),
            GoOnWhile::Carry => self.state.flag(CY),
            GoOnWhile::NotCarry => !self.state.flag(CY),
        }
    }

    fn advance_by<W: Width>(&mut self, pointer: usize) {
        let old = self.state.general[pointer];
        self.state.general[pointer] = if self.state.flag(DIR) {
            old.wrapping_sub(W::BYTES)
        } else {
            old.wrapping_add(W::BYTES)
        };
    }

    fn load_source<W: Width>(&mut self) -> W {
        self.load(self.data_segment(DS0), self.state.general[IX])
    }

    fn load_target<W: Width>(&mut self) -> W {
        self.load(self.state.segment[DS1], self.state.general[IY])
    }

    fn store_target<W: Width>(&mut self, value: W) {
        self.store(self.state.segment[DS1], self.state.general[IY], value);
    }

    pub(super) fn block_move<W: Width>(&mut self) -> Result<Element, Refusal> {
        let value = self.load_source::<W>();
        self.store_target(value);
        self.advance_by::<W>(IX);
        self.advance_by::<W>(IY);
        Ok(Element::Moved)
    }

    pub(super) fn block_compare<W: Width>(&mut self) -> Result<Element, Refusal> {
        let left = self.load_source::<W>();
        let right = self.load_target::<W>();
        self.subtract(left, right, 0);
        self.advance_by::<W>(IX);
        self.advance_by::<W>(IY);
        Ok(Element::Compared)
    }

    pub(super) fn block_scan<W: Width>(&mut self) -> Result<Element, Refusal> {
        let left = self.register::<W>(AW);
        let right = self.load_target::<W>();
        self.subtract(left, right, 0);
        self.advance_by::<W>(IY);
        Ok(Element::Compared)
    }

    pub(super) fn block_load<W: Width>(&mut self) -> Result<Element, Refusal> {
        let value = self.load_source::<W>();
        self.set_register(AW, value);
        self.advance_by::<W>(IX);
        Ok(Element::Moved)
    }

    pub(super) fn block_store<W: Width>(&mut self) -> Result<Element, Refusal> {
        self.store_target(self.register::<W>(AW));
        self.advance_by::<W>(IY);
        Ok(Element::Moved)
    }

    pub(super) fn block_input<W: Width>(&mut self) -> Result<Element, Refusal> {
        let value = self.read_port::<W>(self.state.general[DW])?;
        self.store_target(value);
        self.advance_by::<W>(IY);
        Ok(Element::Moved)
    }

    pub(super) fn block_output<W: Width>(&mut self) -> Result<Element, Refusal> {
        let value = self.load_source::<W>();
        self.write_port(self.state.general[DW], value)?;
        self.advance_by::<W>(IX);
        Ok(Element::Moved)
    }

    pub(super) fn input_from_immediate_port<W: Width>(&mut self) -> Outcome {
        let port = u16::from(self.fetch_byte());
        self.input::<W>(port)
    }

    pub(super) fn output_to_immediate_port<W: Width>(&mut self) -> Outcome {
        let port = u16::from(self.fetch_byte());
        self.output::<W>(port)
    }

    pub(super) fn input<W: Width>(&mut self, port: u16) -> Outcome {
        let value = self.read_port::<W>(port)?;
        self.set_register(AW, value);
        Ok(())
    }

    pub(super) fn output<W: Width>(&mut self, port: u16) -> Outcome {
        self.write_port(port, self.register::<W>(AW))
    }
}
