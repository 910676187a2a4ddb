//! The registers, the program status word and what else a step hands on.

/// Codes of the word registers, as an instruction's reg field names them.
pub const AW: usize = 0;
pub const CW: usize = 1;
pub const DW: usize = 2;
pub const BW: usize = 3;
pub const SP: usize = 4;
pub const BP: usize = 5;
pub const IX: usize = 6;
pub const IY: usize = 7;

/// Codes of the segment registers, as an instruction's sreg field names them.
pub const DS1: usize = 0;
pub const PS: usize = 1;
pub const SS: usize = 2;
pub const DS0: usize = 3;

/// Flags of the program status word.
pub const CY: u16 = 1 << 0;
pub const P: u16 = 1 << 2;
pub const AC: u16 = 1 << 4;
pub const Z: u16 = 1 << 6;
pub const S: u16 = 1 << 7;
pub const BRK: u16 = 1 << 8;
pub const IE: u16 = 1 << 9;
pub const DIR: u16 = 1 << 10;
pub const V: u16 = 1 << 11;
/// 1 in native mode, 0 in the 8080 mode.
pub const MODE: u16 = 1 << 15;

/// Bits 1 and 12 to 14 are always one, bits 3 and 5 always zero.
const FIXED_ONES: u16 = 0x7002;
const FIXED_ZEROS: u16 = 0x0028;

#[derive(Clone, Debug, PartialEq, Eq)]
pub struct State {
    /// AW CW DW BW SP BP IX IY.
    pub general: [u16; 8],
    /// DS1 PS SS DS0.
    pub segment: [u16; 4],
    pub pc: u16,
    pub psw: u16,
    /// A popped PSW writes the mode: so from BRKEM to RETEM.
    pub may_write_mode: bool,
    pub halted: bool,
    /// The last finished step was a MOV or POP into a segment register.
    pub after_segment_load: bool,
    pub tape_place: u32,
    pub log_place: u32,
    /// Finished steps since the last record or reset; it stops at the new rule's ceiling, the largest u32, so none is too large.
    pub count: u32,
}

impl State {
    pub fn after_reset() -> State {
        let mut segment = [0; 4];
        segment[PS] = 0xFFFF;
        State {
            general: [0; 8],
            segment,
            pc: 0,
            psw: MODE | FIXED_ONES,
            may_write_mode: false,
            halted: false,
            after_segment_load: false,
            tape_place: 0,
            log_place: 0,
            count: 0,
        }
    }

    /// The mode is fixed, too, where it may not be written.
    pub fn fixed_bits_are_right(&self) -> bool {
        let fixed = self.psw & (FIXED_ONES | FIXED_ZEROS) == FIXED_ONES;
        fixed && (self.is_native() || self.may_write_mode)
    }

    pub fn is_native(&self) -> bool {
        self.flag(MODE)
    }

    /// Takes a popped PSW; its fixed bits do not depend on the stack, nor does a mode that may not be written.
    pub fn load_psw(&mut self, word: u16) {
        let mode = if self.may_write_mode { word } else { self.psw } & MODE;
        self.psw = word & !(FIXED_ZEROS | MODE) | FIXED_ONES | mode;
    }

    pub fn flag(&self, flag: u16) -> bool {
        self.psw & flag != 0
    }

    pub fn set_flag(&mut self, flag: u16, on: bool) {
        if on {
            self.psw |= flag;
        } else {
            self.psw &= !flag;
        }
    }

    /// Gives the flags of the mask new values and leaves the others.
    pub fn replace_flags(&mut self, mask: u16, flags: u16) {
        self.psw = self.psw & !mask | flags;
    }

    /// AL CL DL BL AH CH DH BH.
    pub fn byte_register(&self, code: usize) -> u8 {
        let word = self.general[code & 3];
        if code < 4 {
            word as u8
        } else {
            (word >> 8) as u8
        }
    }

    pub fn set_byte_register(&mut self, code: usize, value: u8) {
        let word = &mut self.general[code & 3];
        *word = if code < 4 {
            *word & 0xFF00 | u16::from(value)
        } else {
            *word & 0x00FF | u16::from(value) << 8
        };
    }

    pub fn al(&self) -> u8 {
        self.byte_register(0)
    }

    pub fn set_al(&mut self, value: u8) {
        self.set_byte_register(0, value);
    }

    pub fn ah(&self) -> u8 {
        self.byte_register(4)
    }

    pub fn set_ah(&mut self, value: u8) {
        self.set_byte_register(4, value);
    }

    pub fn cl(&self) -> u8 {
        self.byte_register(1)
    }
}
