//! The bytes that answer a case.

use crate::judge::case::{double_word_at, registers_in_order, word_at, Call};
use crate::machine::Tally;
use crate::state::State;

const CALL_LENGTH: usize = 88;
const READING_LENGTH: usize = 17;

const REGISTER_NAMES: [&str; 14] = [
    "AW", "CW", "DW", "BW", "SP", "BP", "IX", "IY", "PS", "SS", "DS0", "DS1", "PC", "PSW",
];

/// How many bytes answer a call.
pub fn length_for(call: Call) -> usize {
    match call {
        Call::LogReading => READING_LENGTH,
        _ => CALL_LENGTH,
    }
}

/// What a step, run, interrupt or reset answered.
pub struct CallResult<'a> {
    pub answer: u8,
    pub steps: u32,
    pub tally: Tally,
    pub state: &'a State,
    pub ram: &'a [u8],
    pub log: &'a [u8],
}

impl CallResult<'_> {
    pub fn bytes(&self) -> Vec<u8> {
        let mut bytes = vec![self.answer, u8::from(self.state.halted)];
        bytes.extend(self.steps.to_le_bytes());
        bytes.extend(self.tally.bus_cycles.to_le_bytes());
        for word in registers_in_order(self.state) {
            bytes.extend(word.to_le_bytes());
        }
        for number in [
            self.state.tape_place,
            self.state.log_place,
            self.state.count,
            sum(self.ram),
            sum(self.log),
            self.tally.dropped_bytes,
        ] {
            bytes.extend(number.to_le_bytes());
        }
        // what belongs to requests that are not built
        bytes.resize(CALL_LENGTH, 0);
        bytes[70] = u8::from(self.state.after_segment_load);
        bytes[71] = u8::from(self.state.may_write_mode);
        bytes
    }
}

/// FNV-1a over 32 bits.
pub fn sum(bytes: &[u8]) -> u32 {
    bytes.iter().fold(2_166_136_261, |sum, &byte| {
        (sum ^ u32::from(byte)).wrapping_mul(16_777_619)
    })
}

/// One named value of a result, for people to read.
#[derive(Debug, PartialEq, Eq)]
pub struct Field {
    pub name: &'static str,
    pub value: Value,
}

#[derive(Clone, Copy, Debug, PartialEq, Eq)]
pub enum Value {
    Decimal(u64),
    Register(u16),
    Sum(u32),
}

/// The fields of a result whose length is right.
pub fn fields(call: Call, bytes: &[u8]) -> Vec<Field> {
    match call {
        Call::LogReading => reading_fields(bytes),
        _ => call_fields(bytes),
    }
}

fn call_fields(bytes: &[u8]) -> Vec<Field> {
    let decimal = |name, offset| decimal_field(name, bytes, offset, 4);
    let sum = |name, offset| Field {
        name,
        value: Value::Sum(double_word_at(bytes, offset)),
    };
    let byte = |name, offset| decimal_field(name, bytes, offset, 1);
    let mut fields = vec![
        byte("the answer", 0),
        byte("the halted mark", 1),
        decimal("the steps done", 2),
        decimal("the bus cycles", 6),
    ];
    for (index, name) in REGISTER_NAMES.into_iter().enumerate() {
        let value = Value::Register(word_at(bytes, 10 + 2 * index));
        fields.push(Field { name, value });
    }
    fields.extend([
        decimal("the tape place", 38),
        decimal("the log place", 42),
        decimal("the count", 46),
        sum("the sum of RAM", 50),
        sum("the sum of the log", 54),
        decimal("the number of dropped bytes", 58),
        decimal_field("the number of clocks", bytes, 62, 8),
        byte("the mark of a segment load", 70),
        byte("the permission to write the mode", 71),
        Field {
            name: "the flags marked undefined",
            value: Value::Register(word_at(bytes, 72)),
        },
        decimal("the number of instructions reported", 74),
        sum("the sum of their addresses", 78),
        decimal_field("the zero at the end", bytes, 82, 6),
    ]);
    fields
}

/// The number of so many bytes, the lowest first.
fn decimal_field(name: &'static str, bytes: &[u8], offset: usize, length: usize) -> Field {
    let number = bytes[offset..offset + length]
        .iter()
        .rev()
        .fold(0, |high, &low| high << 8 | u64::from(low));
    Field {
        name,
        value: Value::Decimal(number),
    }
}

fn reading_fields(bytes: &[u8]) -> Vec<Field> {
    let decimal = |name, offset| decimal_field(name, bytes, offset, 4);
    vec![
        decimal_field("the kind", bytes, 0, 1),
        decimal("the gap", 1),
        decimal("the key", 5),
        decimal("the value", 9),
        decimal("the place after", 13),
    ]
}
