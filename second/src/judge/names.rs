//! Short names of instructions, for people who read mismatches.

/// More bytes than this are never shown.
pub const MOST_BYTES: usize = 9;

const OPERATIONS: [&str; 8] = ["ADD", "OR", "ADDC", "SUBC", "AND", "SUB", "XOR", "CMP"];
const SHIFTS: [&str; 8] = [
    "ROL", "ROR", "ROLC", "RORC", "SHL", "SHR", "unknown", "SHRA",
];
const ONE_OPERAND: [&str; 8] = [
    "TEST", "unknown", "NOT", "NEG", "MULU", "MUL", "DIVU", "DIV",
];
const WORD_GROUP: [&str; 8] = [
    "INC", "DEC", "CALL", "CALL far", "BR", "BR far", "PUSH", "unknown",
];
const BYTE_GROUP: [&str; 2] = ["INC", "DEC"];
const BITS: [&str; 4] = ["TEST1", "CLR1", "SET1", "NOT1"];
const BRANCHES: [&str; 16] = [
    "BV", "BNV", "BC", "BNC", "BE", "BNE", "BNH", "BH", "BN", "BP", "BPE", "BPO", "BLT", "BGE",
    "BLE", "BGT",
];

/// What follows the opcode.
#[derive(Clone, Copy)]
enum Tail {
    Nothing,
    Bytes(usize),
    /// A mod-reg-mem byte with its displacement, then so many bytes.
    Operands(usize),
}
use Tail::{Bytes, Nothing, Operands};

pub struct Named {
    pub name: String,
    pub length: usize,
}

/// Names the instruction at the start of the bytes; missing bytes count as zero.
pub fn name(bytes: &[u8]) -> Named {
    let at = |index: usize| bytes.get(index).copied().unwrap_or(0);
    let mut words: Vec<&str> = Vec::new();
    let mut length = 0;
    while let Some(prefix) = prefix_name(at(length)) {
        words.push(prefix);
        length += 1;
        if length > 3 {
            return Named {
                name: words.join(" "),
                length,
            };
        }
    }
    let first = at(length);
    length += 1;
    let (word, tail) = if first == 0x0F {
        length += 1;
        second_byte_name(at(length - 1), at(length))
    } else {
        first_byte_name(first, at(length))
    };
    words.push(word);
    let follows = match tail {
        Nothing => 0,
        Bytes(count) => count,
        Operands(count) => {
            words.push(if at(length) >= 0xC0 { "reg" } else { "mem" });
            1 + displacement_length(at(length)) + count
        }
    };
    Named {
        name: words.join(" "),
        length: (length + follows).min(MOST_BYTES),
    }
}

fn displacement_length(operands: u8) -> usize {
    match (operands >> 6, operands & 7) {
        (0, 6) | (2, _) => 2,
        (1, _) => 1,
        _ => 0,
    }
}

fn prefix_name(byte: u8) -> Option<&'static str> {
    Some(match byte {
        0x26 => "DS1:",
        0x2E => "PS:",
        0x36 => "SS:",
        0x3E => "DS0:",
        0x64 => "REPNC",
        0x65 => "REPC",
        0xF0 => "BUSLOCK",
        0xF2 => "REPNE",
        0xF3 => "REP",
        _ => return None,
    })
}

fn first_byte_name(first: u8, operands: u8) -> (&'static str, Tail) {
    let reg = usize::from(operands >> 3 & 7);
    let immediate = 1 + usize::from(first & 1);
    match first {
        0x06 | 0x0E | 0x16 | 0x1E => ("PUSH sreg", Nothing),
        0x07 | 0x17 | 0x1F => ("POP sreg", Nothing),
        0x27 => ("ADJ4A", Nothing),
        0x2F => ("ADJ4S", Nothing),
        0x37 => ("ADJBA", Nothing),
        0x3F => ("ADJBS", Nothing),
        0x00..=0x3F => {
            let operation = OPERATIONS[usize::from(first >> 3)];
            let accumulator = first & 7 >= 4;
            let tail = if accumulator {
                Bytes(immediate)
            } else {
                Operands(0)
            };
            (operation, tail)
        }
        0x40..=0x47 => ("INC reg16", Nothing),
        0x48..=0x4F => ("DEC reg16", Nothing),
        0x50..=0x57 => ("PUSH reg16", Nothing),
        0x58..=0x5F => ("POP reg16", Nothing),
        0x60 => ("PUSH R", Nothing),
        0x61 => ("POP R", Nothing),
        0x62 => ("CHKIND", Operands(0)),
        0x68 => ("PUSH imm16", Bytes(2)),
        0x69 => ("MUL imm16", Operands(2)),
        0x6A => ("PUSH imm8", Bytes(1)),
        0x6B => ("MUL imm8", Operands(1)),
        0x6C | 0x6D => ("INM", Nothing),
        0x6E | 0x6F => ("OUTM", Nothing),
        0x70..=0x7F => (BRANCHES[usize::from(first & 15)], Bytes(1)),
        0x80 | 0x82 | 0x83 => (OPERATIONS[reg], Operands(1)),
        0x81 => (OPERATIONS[reg], Operands(2)),
        0x84 | 0x85 => ("TEST", Operands(0)),
        0x86 | 0x87 => ("XCH", Operands(0)),
        0x88..=0x8C | 0x8E => ("MOV", Operands(0)),
        0x8D => ("LDEA", Operands(0)),
        0x8F => ("POP", Operands(0)),
        0x90 => ("NOP", Nothing),
        0x91..=0x97 => ("XCH AW,reg16", Nothing),
        0x98 => ("CVTBW", Nothing),
        0x99 => ("CVTWL", Nothing),
        0x9A => ("CALL far", Bytes(4)),
        0x9C => ("PUSH PSW", Nothing),
        0x9D => ("POP PSW", Nothing),
        0x9E => ("MOV PSW,AH", Nothing),
        0x9F => ("MOV AH,PSW", Nothing),
        0xA0..=0xA3 => ("MOV acc,dmem", Bytes(2)),
        0xA4 | 0xA5 => ("MOVBK", Nothing),
        0xA6 | 0xA7 => ("CMPBK", Nothing),
        0xA8 | 0xA9 => ("TEST acc,imm", Bytes(immediate)),
        0xAA | 0xAB => ("STM", Nothing),
        0xAC | 0xAD => ("LDM", Nothing),
        0xAE | 0xAF => ("CMPM", Nothing),
        0xB0..=0xB7 => ("MOV reg8,imm8", Bytes(1)),
        0xB8..=0xBF => ("MOV reg16,imm16", Bytes(2)),
        0xC0 | 0xC1 => (SHIFTS[reg], Operands(1)),
        0xC2 => ("RET pop-value", Bytes(2)),
        0xC3 => ("RET", Nothing),
        0xC4 => ("MOV DS1,reg16,mem32", Operands(0)),
        0xC5 => ("MOV DS0,reg16,mem32", Operands(0)),
        0xC6 | 0xC7 => ("MOV imm to", Operands(immediate)),
        0xC8 => ("PREPARE", Bytes(3)),
        0xC9 => ("DISPOSE", Nothing),
        0xCA => ("RET far pop-value", Bytes(2)),
        0xCB => ("RET far", Nothing),
        0xCC => ("BRK 3", Nothing),
        0xCD => ("BRK imm8", Bytes(1)),
        0xCE => ("BRKV", Nothing),
        0xCF => ("RETI", Nothing),
        0xD0..=0xD3 => (SHIFTS[reg], Operands(0)),
        0xD4 => ("CVTBD", Bytes(1)),
        0xD5 => ("CVTDB", Bytes(1)),
        0xD7 => ("TRANS", Nothing),
        0xE0 => ("DBNZNE", Bytes(1)),
        0xE1 => ("DBNZE", Bytes(1)),
        0xE2 => ("DBNZ", Bytes(1)),
        0xE3 => ("BCWZ", Bytes(1)),
        0xE4 | 0xE5 => ("IN acc,imm8", Bytes(1)),
        0xE6 | 0xE7 => ("OUT imm8,acc", Bytes(1)),
        0xE8 => ("CALL near", Bytes(2)),
        0xE9 => ("BR near", Bytes(2)),
        0xEA => ("BR far", Bytes(4)),
        0xEB => ("BR short", Bytes(1)),
        0xEC | 0xED => ("IN acc,DW", Nothing),
        0xEE | 0xEF => ("OUT DW,acc", Nothing),
        0xF4 => ("HALT", Nothing),
        0xF5 => ("NOT1 CY", Nothing),
        0xF6 | 0xF7 if reg == 0 => (ONE_OPERAND[0], Operands(immediate)),
        0xF6 | 0xF7 => (ONE_OPERAND[reg], Operands(0)),
        0xF8 => ("CLR1 CY", Nothing),
        0xF9 => ("SET1 CY", Nothing),
        0xFA => ("DI", Nothing),
        0xFB => ("EI", Nothing),
        0xFC => ("CLR1 DIR", Nothing),
        0xFD => ("SET1 DIR", Nothing),
        0xFE if reg < 2 => (BYTE_GROUP[reg], Operands(0)),
        0xFE => ("unknown", Operands(0)),
        0xFF => (WORD_GROUP[reg], Operands(0)),
        _ => ("unknown", Nothing),
    }
}

fn second_byte_name(second: u8, operands: u8) -> (&'static str, Tail) {
    let immediate = usize::from(second >> 3 & 1);
    match second {
        0x10..=0x1F if operands >> 3 & 7 != 0 => ("unknown", Operands(0)),
        0x10..=0x1F => (BITS[usize::from(second >> 1 & 3)], Operands(immediate)),
        0x20 => ("ADD4S", Nothing),
        0x22 => ("SUB4S", Nothing),
        0x26 => ("CMP4S", Nothing),
        0x28 => ("ROL4", Operands(0)),
        0x2A => ("ROR4", Operands(0)),
        0x31 | 0x39 => ("INS", Operands(immediate)),
        0x33 | 0x3B => ("EXT", Operands(immediate)),
        0xFF => ("BRKEM", Bytes(1)),
        _ => ("unknown", Nothing),
    }
}
