//! Reads one instruction of an image and puts it into words.

use crate::memory::ADDRESS_SPACE;
use crate::refusal::Refusal;

const MOST_PREFIXES: u32 = 3;

/// What a decimal conversion must have as its second byte.
const BASE: u8 = 0x0A;

const BYTE_REGISTERS: [&str; 8] = ["AL", "CL", "DL", "BL", "AH", "CH", "DH", "BH"];
const WORD_REGISTERS: [&str; 8] = ["AW", "CW", "DW", "BW", "SP", "BP", "IX", "IY"];
const SEGMENTS: [&str; 4] = ["DS1", "PS", "SS", "DS0"];

/// The eight address forms, each with its usual segment.
const ADDRESS_FORMS: [(&str, &str); 8] = [
    ("BW+IX", "DS0"),
    ("BW+IY", "DS0"),
    ("BP+IX", "SS"),
    ("BP+IY", "SS"),
    ("IX", "DS0"),
    ("IY", "DS0"),
    ("BP", "SS"),
    ("BW", "DS0"),
];

const OPERATIONS: [&str; 8] = ["ADD", "OR", "ADDC", "SUBC", "AND", "SUB", "XOR", "CMP"];
const BRANCHES: [&str; 16] = [
    "BV", "BNV", "BC", "BNC", "BE", "BNE", "BNH", "BH", "BN", "BP", "BPE", "BPO", "BLT", "BGE",
    "BLE", "BGT",
];
const LOOPS: [&str; 4] = ["DBNZNE", "DBNZE", "DBNZ", "BCWZ"];
const BITS: [&str; 4] = ["TEST1", "CLR1", "SET1", "NOT1"];

pub struct Instruction {
    pub length: usize,
    pub words: String,
}

#[derive(Debug, PartialEq, Eq)]
pub enum NoInstruction {
    /// The number with which the engine refuses these bytes.
    Refused(Refusal),
    /// The engine would read on where the bytes end.
    CutOff,
}

const UNKNOWN: NoInstruction = NoInstruction::Refused(Refusal::UnknownInstruction);

type Reading<T> = Result<T, NoInstruction>;

/// The instruction at the start of the bytes, whose first one has this address.
pub fn read(bytes: &[u8], address: usize) -> Reading<Instruction> {
    let mut reader = Reader {
        bytes,
        address,
        length: 0,
        segment: None,
        repeat: None,
    };
    let first = reader.first_after_prefixes()?;
    let words = reader.words(first)?;
    Ok(Instruction {
        length: reader.length,
        words,
    })
}

#[derive(Clone, Copy)]
enum Size {
    Byte,
    Word,
    Double,
}
use Size::{Byte, Double, Word};

impl Size {
    /// By the W bit of an opcode.
    fn of(opcode: u8) -> Size {
        if opcode & 1 == 0 {
            Byte
        } else {
            Word
        }
    }

    fn name(self) -> &'static str {
        match self {
            Byte => "BYTE",
            Word => "WORD",
            Double => "DWORD",
        }
    }

    fn register(self, code: usize) -> &'static str {
        match self {
            Byte => BYTE_REGISTERS[code],
            Word | Double => WORD_REGISTERS[code],
        }
    }

    fn accumulator(self) -> &'static str {
        self.register(0)
    }
}

/// What a mod-reg-mem byte and its displacement name.
struct Operands {
    reg: usize,
    place: Place,
}

enum Place {
    Register(usize),
    /// Segment and offset, as they are shown.
    Memory(String),
}

impl Operands {
    fn register(&self, size: Size) -> &'static str {
        size.register(self.reg)
    }

    fn place(&self, size: Size) -> String {
        match &self.place {
            Place::Register(code) => size.register(*code).to_string(),
            Place::Memory(address) => format!("{} {address}", size.name()),
        }
    }

    fn is_register(&self) -> bool {
        matches!(self.place, Place::Register(_))
    }

    fn memory(&self) -> Reading<&str> {
        match &self.place {
            Place::Register(_) => Err(UNKNOWN),
            Place::Memory(address) => Ok(address),
        }
    }

    fn double(&self) -> Reading<String> {
        self.memory()
            .map(|address| format!("{} {address}", Double.name()))
    }

    fn with_zero_reg(self) -> Reading<Operands> {
        if self.reg == 0 {
            Ok(self)
        } else {
            Err(UNKNOWN)
        }
    }
}

struct Reader<'a> {
    bytes: &'a [u8],
    address: usize,
    /// How many bytes were read.
    length: usize,
    /// Named by the last segment prefix.
    segment: Option<&'static str>,
    /// The last repeat prefix.
    repeat: Option<&'static str>,
}

impl Reader<'_> {
    fn byte(&mut self) -> Reading<u8> {
        let byte = self.bytes.get(self.length);
        self.length += 1;
        byte.copied().ok_or(NoInstruction::CutOff)
    }

    fn word(&mut self) -> Reading<u16> {
        let low = self.byte()?;
        let high = self.byte()?;
        Ok(u16::from_le_bytes([low, high]))
    }

    /// A byte widened with its sign.
    fn signed_byte(&mut self) -> Reading<u16> {
        Ok(self.byte()? as i8 as u16)
    }

    fn first_after_prefixes(&mut self) -> Reading<u8> {
        for _ in 0..=MOST_PREFIXES {
            let byte = self.byte()?;
            match byte {
                0x26 | 0x2E | 0x36 | 0x3E => self.segment = Some(segment_in(byte)),
                0x64 => self.repeat = Some("REPNC"),
                0x65 => self.repeat = Some("REPC"),
                0xF0 => {}
                0xF2 => self.repeat = Some("REPNE"),
                0xF3 => self.repeat = Some("REP"),
                _ => return Ok(byte),
            }
        }
        Err(NoInstruction::Refused(Refusal::FourthPrefix))
    }

    fn words(&mut self, first: u8) -> Reading<String> {
        let size = Size::of(first);
        let accumulator = size.accumulator();
        let low_code = usize::from(first & 7);
        Ok(match first {
            0x0F => self.words_of_second_byte()?,
            0x06 | 0x0E | 0x16 | 0x1E => format!("PUSH {}", segment_in(first)),
            0x07 | 0x17 | 0x1F => format!("POP {}", segment_in(first)),
            0x27 => "ADJ4A".to_string(),
            0x2F => "ADJ4S".to_string(),
            0x37 => "ADJBA".to_string(),
            0x3F => "ADJBS".to_string(),
            0x00..=0x3F => {
                let name = OPERATIONS[usize::from(first >> 3)];
                match first & 7 {
                    0 | 1 => self.place_and_register(name, size)?,
                    2 | 3 => self.register_and_place(name, size)?,
                    _ => format!("{name} {accumulator},{}", self.immediate(size)?),
                }
            }
            0x40..=0x47 => format!("INC {}", Word.register(low_code)),
            0x48..=0x4F => format!("DEC {}", Word.register(low_code)),
            0x50..=0x57 => format!("PUSH {}", Word.register(low_code)),
            0x58..=0x5F => format!("POP {}", Word.register(low_code)),
            0x60 => "PUSH R".to_string(),
            0x61 => "POP R".to_string(),
            0x62 => {
                let operands = self.operands()?;
                format!("CHKIND {},{}", operands.register(Word), operands.double()?)
            }
            0x68 => format!("PUSH {}", self.immediate(Word)?),
            0x69 => {
                let operands = self.register_and_place("MUL", Word)?;
                format!("{operands},{}", self.immediate(Word)?)
            }
            0x6A => format!("PUSH {}", self.widened_immediate()?),
            0x6B => {
                let operands = self.register_and_place("MUL", Word)?;
                format!("{operands},{}", self.widened_immediate()?)
            }
            0x6C | 0x6D => self.repeated(format!("INM {},DW", target(size))),
            0x6E | 0x6F => self.repeated(format!("OUTM DW,{}", self.source(size))),
            0x70..=0x7F => self.short_branch(BRANCHES[usize::from(first & 15)])?,
            0x80..=0x83 => {
                let operands = self.operands()?;
                let immediate = match first {
                    0x83 => self.widened_immediate()?,
                    _ => self.immediate(size)?,
                };
                let name = OPERATIONS[operands.reg];
                format!("{name} {},{immediate}", operands.place(size))
            }
            0x84 | 0x85 => self.place_and_register("TEST", size)?,
            0x86 | 0x87 => self.exchange(size)?,
            0x88 | 0x89 => self.place_and_register("MOV", size)?,
            0x8A | 0x8B => self.register_and_place("MOV", size)?,
            0x8C => {
                let operands = self.operands()?;
                let segment = *SEGMENTS.get(operands.reg).ok_or(UNKNOWN)?;
                format!("MOV {},{segment}", operands.place(Word))
            }
            0x8D => {
                let operands = self.operands()?;
                format!("LDEA {},{}", operands.register(Word), operands.memory()?)
            }
            0x8E => {
                let operands = self.operands()?;
                let segment = *SEGMENTS.get(operands.reg).ok_or(UNKNOWN)?;
                if segment == "PS" {
                    return Err(UNKNOWN);
                }
                format!("MOV {segment},{}", operands.place(Word))
            }
            0x8F => format!("POP {}", self.operands()?.with_zero_reg()?.place(Word)),
            0x90 => "NOP".to_string(),
            0x91..=0x97 => format!("XCH {},AW", Word.register(low_code)),
            0x98 => "CVTBW".to_string(),
            0x99 => "CVTWL".to_string(),
            0x9A => format!("CALL {}", self.far_address()?),
            0x9C => "PUSH PSW".to_string(),
            0x9D => "POP PSW".to_string(),
            0x9E => "MOV PSW,AH".to_string(),
            0x9F => "MOV AH,PSW".to_string(),
            0xA0 | 0xA1 => format!("MOV {accumulator},{}", self.direct(size)?),
            0xA2 | 0xA3 => format!("MOV {},{accumulator}", self.direct(size)?),
            0xA4 | 0xA5 => self.repeated(format!("MOVBK {}", self.target_and_source(size))),
            0xA6 | 0xA7 => self.repeated(format!("CMPBK {},{}", self.source(size), target(size))),
            0xA8 | 0xA9 => format!("TEST {accumulator},{}", self.immediate(size)?),
            0xAA | 0xAB => self.repeated(format!("STM {}", target(size))),
            0xAC | 0xAD => self.repeated(format!("LDM {}", self.source(size))),
            0xAE | 0xAF => self.repeated(format!("CMPM {}", target(size))),
            0xB0..=0xB7 => {
                format!("MOV {},{}", Byte.register(low_code), self.immediate(Byte)?)
            }
            0xB8..=0xBF => {
                format!("MOV {},{}", Word.register(low_code), self.immediate(Word)?)
            }
            0xC0 | 0xC1 => {
                let shift = self.shift(size)?;
                format!("{shift},{}", self.immediate(Byte)?)
            }
            0xC2 | 0xCA => format!("RET {}", self.immediate(Word)?),
            0xC3 | 0xCB => "RET".to_string(),
            0xC4 => self.pointer_load("DS1")?,
            0xC5 => self.pointer_load("DS0")?,
            0xC6 | 0xC7 => {
                let operands = self.operands()?.with_zero_reg()?;
                format!("MOV {},{}", operands.place(size), self.immediate(size)?)
            }
            0xC8 => {
                let frame = self.immediate(Word)?;
                format!("PREPARE {frame},{}", self.immediate(Byte)?)
            }
            0xC9 => "DISPOSE".to_string(),
            0xCC => "BRK 3".to_string(),
            0xCD => format!("BRK {}", self.immediate(Byte)?),
            0xCE => "BRKV".to_string(),
            0xCF => "RETI".to_string(),
            0xD0 | 0xD1 => format!("{},1", self.shift(size)?),
            0xD2 | 0xD3 => format!("{},CL", self.shift(size)?),
            0xD4 => self.conversion("CVTBD")?,
            0xD5 => self.conversion("CVTDB")?,
            0xD7 => format!("TRANS BYTE {}:[BW]", self.segment_or("DS0")),
            0xE0..=0xE3 => self.short_branch(LOOPS[usize::from(first & 3)])?,
            0xE4 | 0xE5 => format!("IN {accumulator},{}", self.immediate(Byte)?),
            0xE6 | 0xE7 => format!("OUT {},{accumulator}", self.immediate(Byte)?),
            0xE8 => self.near_branch("CALL")?,
            0xE9 => self.near_branch("BR")?,
            0xEA => format!("BR {}", self.far_address()?),
            0xEB => self.short_branch("BR")?,
            0xEC | 0xED => format!("IN {accumulator},DW"),
            0xEE | 0xEF => format!("OUT DW,{accumulator}"),
            0xF4 => "HALT".to_string(),
            0xF5 => "NOT1 CY".to_string(),
            0xF6 | 0xF7 => self.one_operand(size)?,
            0xF8 => "CLR1 CY".to_string(),
            0xF9 => "SET1 CY".to_string(),
            0xFA => "DI".to_string(),
            0xFB => "EI".to_string(),
            0xFC => "CLR1 DIR".to_string(),
            0xFD => "SET1 DIR".to_string(),
            0xFE => self.byte_group()?,
            0xFF => self.word_group()?,
            _ => return Err(UNKNOWN),
        })
    }

    fn words_of_second_byte(&mut self) -> Reading<String> {
        let second = self.byte()?;
        Ok(match second {
            0x10..=0x1F => {
                let operands = self.operands()?.with_zero_reg()?;
                let number = match second {
                    0x10..=0x17 => "CL".to_string(),
                    _ => self.immediate(Byte)?,
                };
                let name = BITS[usize::from(second >> 1 & 3)];
                format!("{name} {},{number}", operands.place(Size::of(second)))
            }
            0x20 => format!("ADD4S {}", self.target_and_source(Byte)),
            0x22 => format!("SUB4S {}", self.target_and_source(Byte)),
            0x26 => format!("CMP4S {}", self.target_and_source(Byte)),
            0x28 => format!("ROL4 {}", self.operands()?.with_zero_reg()?.place(Byte)),
            0x2A => format!("ROR4 {}", self.operands()?.with_zero_reg()?.place(Byte)),
            0x31 => format!("INS {},{}", self.field_in_registers()?, target(Word)),
            0x33 => format!("EXT {},{}", self.field_in_registers()?, self.source(Word)),
            0x39 => format!("INS {},{}", self.field_of_fixed_length()?, target(Word)),
            0x3B => format!(
                "EXT {},{}",
                self.field_of_fixed_length()?,
                self.source(Word)
            ),
            0xFF => format!("BRKEM {}", self.immediate(Byte)?),
            _ => return Err(UNKNOWN),
        })
    }

    fn place_and_register(&mut self, name: &str, size: Size) -> Reading<String> {
        let operands = self.operands()?;
        let register = operands.register(size);
        Ok(format!("{name} {},{register}", operands.place(size)))
    }

    fn register_and_place(&mut self, name: &str, size: Size) -> Reading<String> {
        let operands = self.operands()?;
        let register = operands.register(size);
        Ok(format!("{name} {register},{}", operands.place(size)))
    }

    /// The register of the reg field first, an order that each of XCH's rows has.
    fn exchange(&mut self, size: Size) -> Reading<String> {
        let operands = self.operands()?;
        let (register, place) = (operands.register(size), operands.place(size));
        Ok(format!("XCH {register},{place}"))
    }

    fn pointer_load(&mut self, segment: &str) -> Reading<String> {
        let operands = self.operands()?;
        let register = operands.register(Word);
        Ok(format!("MOV {segment},{register},{}", operands.double()?))
    }

    /// A shift or rotation, up to its count.
    fn shift(&mut self, size: Size) -> Reading<String> {
        let operands = self.operands()?;
        let name = match operands.reg {
            0 => "ROL",
            1 => "ROR",
            2 => "ROLC",
            3 => "RORC",
            4 => "SHL",
            5 => "SHR",
            7 => "SHRA",
            _ => return Err(UNKNOWN),
        };
        Ok(format!("{name} {}", operands.place(size)))
    }

    fn one_operand(&mut self, size: Size) -> Reading<String> {
        let operands = self.operands()?;
        let place = operands.place(size);
        let name = match operands.reg {
            0 => return Ok(format!("TEST {place},{}", self.immediate(size)?)),
            2 => "NOT",
            3 => "NEG",
            4 => "MULU",
            5 => "MUL",
            6 => "DIVU",
            7 => "DIV",
            _ => return Err(UNKNOWN),
        };
        Ok(format!("{name} {place}"))
    }

    fn byte_group(&mut self) -> Reading<String> {
        let operands = self.operands()?;
        let name = match operands.reg {
            0 => "INC",
            1 => "DEC",
            _ => return Err(UNKNOWN),
        };
        Ok(format!("{name} {}", operands.place(Byte)))
    }

    fn word_group(&mut self) -> Reading<String> {
        let operands = self.operands()?;
        Ok(match operands.reg {
            0 => format!("INC {}", operands.place(Word)),
            1 => format!("DEC {}", operands.place(Word)),
            2 => format!("CALL {}", operands.place(Word)),
            3 => format!("CALL {}", operands.double()?),
            4 => format!("BR {}", operands.place(Word)),
            5 => format!("BR {}", operands.double()?),
            6 => format!("PUSH {}", operands.place(Word)),
            _ => return Err(UNKNOWN),
        })
    }

    fn conversion(&mut self, name: &str) -> Reading<String> {
        if self.byte()? == BASE {
            Ok(name.to_string())
        } else {
            Err(UNKNOWN)
        }
    }

    /// Offset and length of a bit field, both in registers.
    fn field_in_registers(&mut self) -> Reading<String> {
        let operands = self.operands()?;
        if !operands.is_register() {
            return Err(UNKNOWN);
        }
        let length = operands.register(Byte);
        Ok(format!("{},{length}", operands.place(Byte)))
    }

    fn field_of_fixed_length(&mut self) -> Reading<String> {
        let operands = self.operands()?.with_zero_reg()?;
        if !operands.is_register() {
            return Err(UNKNOWN);
        }
        Ok(format!(
            "{},{}",
            operands.place(Byte),
            self.immediate(Byte)?
        ))
    }

    /// Puts a repeat prefix before a block primitive.
    fn repeated(&self, primitive: String) -> String {
        match self.repeat {
            Some(repeat) => format!("{repeat} {primitive}"),
            None => primitive,
        }
    }

    /// The source of blocks, decimal strings and bit fields.
    fn source(&self, size: Size) -> String {
        format!("{} {}:[IX]", size.name(), self.segment_or("DS0"))
    }

    fn target_and_source(&self, size: Size) -> String {
        format!("{},{}", target(size), self.source(size))
    }

    fn segment_or(&self, usual: &'static str) -> &'static str {
        self.segment.unwrap_or(usual)
    }

    fn operands(&mut self) -> Reading<Operands> {
        let byte = self.byte()?;
        let (mode, form) = (byte >> 6, usize::from(byte & 7));
        let place = match mode {
            3 => Place::Register(form),
            0 if form == 6 => Place::Memory(self.direct_address()?),
            _ => Place::Memory(self.indirect_address(mode, form)?),
        };
        let reg = usize::from(byte >> 3 & 7);
        Ok(Operands { reg, place })
    }

    fn indirect_address(&mut self, mode: u8, form: usize) -> Reading<String> {
        let displacement = match mode {
            0 => 0,
            1 => self.signed_byte()?,
            _ => self.word()?,
        };
        let (registers, usual_segment) = ADDRESS_FORMS[form];
        let segment = self.segment_or(usual_segment);
        Ok(if displacement == 0 {
            format!("{segment}:[{registers}]")
        } else {
            format!("{segment}:[{registers}+{displacement:04X}]")
        })
    }

    fn direct_address(&mut self) -> Reading<String> {
        let offset = self.word()?;
        Ok(format!("{}:[{offset:04X}]", self.segment_or("DS0")))
    }

    fn direct(&mut self, size: Size) -> Reading<String> {
        Ok(format!("{} {}", size.name(), self.direct_address()?))
    }

    fn immediate(&mut self, size: Size) -> Reading<String> {
        Ok(match size {
            Byte => format!("{:02X}", self.byte()?),
            Word | Double => format!("{:04X}", self.word()?),
        })
    }

    /// A byte, shown as the word that it becomes.
    fn widened_immediate(&mut self) -> Reading<String> {
        Ok(format!("{:04X}", self.signed_byte()?))
    }

    fn short_branch(&mut self, name: &str) -> Reading<String> {
        let distance = self.signed_byte()?;
        Ok(self.branch(name, distance))
    }

    fn near_branch(&mut self, name: &str) -> Reading<String> {
        let distance = self.word()?;
        Ok(self.branch(name, distance))
    }

    /// The distance, a signed one, is the last that is read of a branch.
    fn branch(&self, name: &str, distance: u16) -> String {
        let next = self.address + self.length;
        let target = next.wrapping_add_signed(isize::from(distance as i16)) % ADDRESS_SPACE;
        format!("{name} {target:05X}")
    }

    fn far_address(&mut self) -> Reading<String> {
        let pc = self.word()?;
        let ps = self.word()?;
        Ok(format!("{ps:04X}:{pc:04X}"))
    }
}

/// The segment register that bits 3 and 4 of an opcode name.
fn segment_in(opcode: u8) -> &'static str {
    SEGMENTS[usize::from(opcode >> 3 & 3)]
}

/// The target of blocks, decimal strings and bit fields, which no prefix changes.
fn target(size: Size) -> String {
    format!("{} DS1:[IY]", size.name())
}
