//! One case: a call, its arguments and the buffers that are lent to it.

use crate::gap_rule::GapRule;
use crate::state::{State, DS0, DS1, PS, SS};
use std::io::{self, Read, Write};

/// What fits the program's buffers.
pub const LARGEST_MEMORY: u32 = 1_048_577;
pub const LONGEST_TAPE: u16 = 4_096;
pub const LONGEST_LOG: u16 = 4_096;
pub const MOST_PATCHES: u16 = 4_096;

const HEADER_LENGTH: usize = 72;
const PATCH_LENGTH: usize = 6;

/// The permission to write the mode.
const PERMISSION: usize = 62;
/// From here on a header has zeros: fields of requests that are not built, and bytes that nothing uses.
const ZEROS_FROM: usize = 64;

/// The order in which a stream names the segment registers.
const SEGMENT_ORDER: [usize; 4] = [PS, SS, DS0, DS1];

#[derive(Clone, Copy, Debug, PartialEq, Eq)]
pub enum Call {
    Step,
    Run,
    Interrupt,
    Reset,
    LogReading,
    QuickerRun,
}

impl Call {
    fn of(number: u8) -> Option<Call> {
        [
            Call::Step,
            Call::Run,
            Call::Interrupt,
            Call::Reset,
            Call::LogReading,
            Call::QuickerRun,
        ]
        .get(usize::from(number))
        .copied()
    }
}

#[derive(Clone, Copy, Debug, PartialEq, Eq)]
pub enum Lent {
    Ram,
    Rom,
    Log,
}

/// One byte that differs from the fill.
#[derive(Clone, Copy, Debug, PartialEq, Eq)]
pub struct Patch {
    pub lent: Lent,
    pub index: u32,
    pub value: u8,
}

#[derive(Clone, Debug, PartialEq, Eq)]
pub struct Case {
    pub call: Call,
    pub state: State,
    pub may_be_masked: bool,
    pub vector: u8,
    pub budget: u16,
    pub ram_length: u32,
    pub rom_length: u32,
    pub log_length: u16,
    pub fill: u8,
    /// What a log reading reads under; the other calls do not look at it.
    pub gap_rule: GapRule,
    pub patches: Vec<Patch>,
    pub tape: Vec<u8>,
}

/// The buffers of a case, filled and patched.
pub struct Buffers {
    pub ram: Vec<u8>,
    pub rom: Vec<u8>,
    pub log: Vec<u8>,
}

/// Why no further case came out of a stream.
#[derive(Debug)]
pub enum End {
    /// The stream ended, perhaps in the middle of a case.
    OfStream,
    /// The case breaks a rule of the stream.
    Unfit(&'static str),
    Broken(io::Error),
}

impl From<io::Error> for End {
    fn from(error: io::Error) -> End {
        if error.kind() == io::ErrorKind::UnexpectedEof {
            End::OfStream
        } else {
            End::Broken(error)
        }
    }
}

impl Case {
    pub fn read(stream: &mut impl Read) -> Result<Case, End> {
        let mut header = [0; HEADER_LENGTH];
        stream.read_exact(&mut header)?;
        let case = Case::of_header(&header)?;
        let (tape_length, patch_count) = (word_at(&header, 54), word_at(&header, 58));
        if tape_length > LONGEST_TAPE {
            return Err(End::Unfit("the tape is too long"));
        }
        if patch_count > MOST_PATCHES {
            return Err(End::Unfit("there are too many patches"));
        }
        let mut patch_bytes = vec![0; usize::from(patch_count) * PATCH_LENGTH];
        stream.read_exact(&mut patch_bytes)?;
        let mut tape = vec![0; usize::from(tape_length)];
        stream.read_exact(&mut tape)?;
        let patches = patch_bytes
            .chunks_exact(PATCH_LENGTH)
            .map(Patch::of_bytes)
            .collect::<Option<_>>()
            .ok_or(End::Unfit("there is no such kind of patch"))?;
        Ok(Case {
            patches,
            tape,
            ..case
        })
    }

    fn of_header(header: &[u8; HEADER_LENGTH]) -> Result<Case, End> {
        if [1, 2, 61, PERMISSION, 63]
            .iter()
            .any(|&offset| header[offset] > 1)
        {
            return Err(End::Unfit("a mark is neither 0 nor 1"));
        }
        if header[ZEROS_FROM..].iter().any(|&byte| byte != 0) {
            return Err(End::Unfit("something stands where there must be zero"));
        }
        let case = Case {
            call: Call::of(header[0]).ok_or(End::Unfit("there is no such call"))?,
            state: state_of_header(header),
            may_be_masked: header[2] != 0,
            vector: header[3],
            budget: word_at(header, 4),
            ram_length: double_word_at(header, 46),
            rom_length: double_word_at(header, 50),
            log_length: word_at(header, 56),
            fill: header[60],
            gap_rule: if header[63] == 0 {
                GapRule::Old
            } else {
                GapRule::New
            },
            patches: Vec::new(),
            tape: Vec::new(),
        };
        if case.ram_length > LARGEST_MEMORY || case.rom_length > LARGEST_MEMORY {
            return Err(End::Unfit("RAM or ROM is too long"));
        }
        if case.log_length > LONGEST_LOG {
            return Err(End::Unfit("the log is too long"));
        }
        Ok(case)
    }

    pub fn write(&self, stream: &mut impl Write) -> io::Result<()> {
        let state = &self.state;
        let mut bytes = vec![
            self.call as u8,
            u8::from(state.halted),
            u8::from(self.may_be_masked),
            self.vector,
        ];
        bytes.extend(self.budget.to_le_bytes());
        for word in registers_in_order(state) {
            bytes.extend(word.to_le_bytes());
        }
        for number in [
            state.tape_place,
            state.log_place,
            state.count,
            self.ram_length,
            self.rom_length,
        ] {
            bytes.extend(number.to_le_bytes());
        }
        bytes.extend((self.tape.len() as u16).to_le_bytes());
        bytes.extend(self.log_length.to_le_bytes());
        bytes.extend((self.patches.len() as u16).to_le_bytes());
        bytes.extend([
            self.fill,
            u8::from(state.after_segment_load),
            u8::from(state.may_write_mode),
            self.gap_rule as u8,
        ]);
        bytes.resize(HEADER_LENGTH, 0);
        for patch in &self.patches {
            bytes.push(patch.lent as u8);
            bytes.extend(patch.index.to_le_bytes());
            bytes.push(patch.value);
        }
        bytes.extend(&self.tape);
        stream.write_all(&bytes)
    }

    pub fn buffers(&self) -> Buffers {
        let mut buffers = Buffers {
            ram: vec![self.fill; self.ram_length as usize],
            rom: vec![self.fill; self.rom_length as usize],
            log: vec![self.fill; usize::from(self.log_length)],
        };
        for patch in &self.patches {
            let buffer = match patch.lent {
                Lent::Ram => &mut buffers.ram,
                Lent::Rom => &mut buffers.rom,
                Lent::Log => &mut buffers.log,
            };
            if let Some(byte) = buffer.get_mut(patch.index as usize) {
                *byte = patch.value;
            }
        }
        buffers
    }
}

impl Patch {
    fn of_bytes(bytes: &[u8]) -> Option<Patch> {
        let lent = match bytes[0] {
            0 => Lent::Ram,
            1 => Lent::Rom,
            2 => Lent::Log,
            _ => return None,
        };
        Some(Patch {
            lent,
            index: double_word_at(bytes, 1),
            value: bytes[5],
        })
    }
}

/// AW CW DW BW SP BP IX IY PS SS DS0 DS1 PC PSW.
pub fn registers_in_order(state: &State) -> [u16; 14] {
    let mut words = [0; 14];
    words[..8].copy_from_slice(&state.general);
    for (word, code) in words[8..12].iter_mut().zip(SEGMENT_ORDER) {
        *word = state.segment[code];
    }
    words[12] = state.pc;
    words[13] = state.psw;
    words
}

fn state_of_header(header: &[u8; HEADER_LENGTH]) -> State {
    let mut state = State::after_reset();
    for (code, word) in state.general.iter_mut().enumerate() {
        *word = word_at(header, 6 + 2 * code);
    }
    for (index, code) in SEGMENT_ORDER.into_iter().enumerate() {
        state.segment[code] = word_at(header, 22 + 2 * index);
    }
    state.pc = word_at(header, 30);
    state.psw = word_at(header, 32);
    state.halted = header[1] != 0;
    state.after_segment_load = header[61] != 0;
    state.may_write_mode = header[PERMISSION] != 0;
    state.tape_place = double_word_at(header, 34);
    state.log_place = double_word_at(header, 38);
    state.count = double_word_at(header, 42);
    state
}

pub fn word_at(bytes: &[u8], offset: usize) -> u16 {
    u16::from_le_bytes([bytes[offset], bytes[offset + 1]])
}

pub fn double_word_at(bytes: &[u8], offset: usize) -> u32 {
    let low = u32::from(word_at(bytes, offset));
    let high = u32::from(word_at(bytes, offset + 2));
    high << 16 | low
}
