//! Operands that a mod-reg-mem byte names.

use crate::machine::Machine;
use crate::state::{BP, BW, DS0, IX, IY, SS};
use crate::width::Width;

/// Base, index and usual segment of the eight address forms.
const ADDRESS_FORMS: [(Option<usize>, Option<usize>, usize); 8] = [
    (Some(BW), Some(IX), DS0),
    (Some(BW), Some(IY), DS0),
    (Some(BP), Some(IX), SS),
    (Some(BP), Some(IY), SS),
    (None, Some(IX), DS0),
    (None, Some(IY), DS0),
    (Some(BP), None, SS),
    (Some(BW), None, DS0),
];

/// Where an operand lies.
#[derive(Clone, Copy)]
pub(crate) enum Place {
    Register(usize),
    Memory { segment: u16, offset: u16 },
}

/// The reg field and the operand that mod and mem name.
#[derive(Clone, Copy)]
pub(crate) struct Operands {
    pub reg: usize,
    pub place: Place,
}

impl Operands {
    pub fn register_code(&self) -> Option<usize> {
        match self.place {
            Place::Register(code) => Some(code),
            Place::Memory { .. } => None,
        }
    }

    pub fn address(&self) -> Option<(u16, u16)> {
        match self.place {
            Place::Register(_) => None,
            Place::Memory { segment, offset } => Some((segment, offset)),
        }
    }
}

impl Machine<'_> {
    /// Reads the mod-reg-mem byte and its displacement.
    pub(crate) fn fetch_operands(&mut self) -> Operands {
        let byte = self.fetch_byte();
        let (mode, form) = (byte >> 6, usize::from(byte & 7));
        let place = match mode {
            3 => Place::Register(form),
            0 if form == 6 => {
                let offset = self.fetch_word();
                let segment = self.data_segment(DS0);
                Place::Memory { segment, offset }
            }
            _ => self.fetch_address(mode, form),
        };
        let reg = usize::from(byte >> 3 & 7);
        Operands { reg, place }
    }

    fn fetch_address(&mut self, mode: u8, form: usize) -> Place {
        let displacement = match mode {
            0 => 0,
            1 => self.fetch_signed_byte(),
            _ => self.fetch_word(),
        };
        let (base, index, usual_segment) = ADDRESS_FORMS[form];
        let part = |register: Option<usize>| register.map_or(0, |code| self.state.general[code]);
        let offset = part(base)
            .wrapping_add(part(index))
            .wrapping_add(displacement);
        let segment = self.data_segment(usual_segment);
        Place::Memory { segment, offset }
    }

    /// The value of a segment register, or of the one a prefix put in its place.
    pub(crate) fn data_segment(&self, usual: usize) -> u16 {
        self.state.segment[self.now.segment_prefix.unwrap_or(usual)]
    }

    pub(crate) fn get<W: Width>(&mut self, place: Place) -> W {
        match place {
            Place::Register(code) => W::register(&self.state, code),
            Place::Memory { segment, offset } => self.load(segment, offset),
        }
    }

    pub(crate) fn put<W: Width>(&mut self, place: Place, value: W) {
        match place {
            Place::Register(code) => W::set_register(&mut self.state, code, value),
            Place::Memory { segment, offset } => self.store(segment, offset, value),
        }
    }

    pub(crate) fn register<W: Width>(&self, code: usize) -> W {
        W::register(&self.state, code)
    }

    pub(crate) fn set_register<W: Width>(&mut self, code: usize, value: W) {
        W::set_register(&mut self.state, code, value);
    }

    /// An immediate operand of the instruction's width.
    pub(crate) fn fetch_immediate<W: Width>(&mut self) -> W {
        let low = self.fetch_byte().number();
        let high = if W::BYTES == 2 { self.fetch_byte() } else { 0 };
        W::low_bits(high.number() << 8 | low)
    }
}
