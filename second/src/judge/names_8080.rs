//! Short names of instructions of the 8080 mode, for people who read mismatches.

use super::names::Named;

const REGISTERS: [&str; 8] = ["B", "C", "D", "E", "H", "L", "M", "A"];
const PAIRS: [&str; 4] = ["B", "D", "H", "SP"];
const PUSHED_PAIRS: [&str; 4] = ["B", "D", "H", "PSW"];
const CONDITIONS: [&str; 8] = ["NZ", "Z", "NC", "C", "PO", "PE", "P", "M"];
const OPERATIONS: [&str; 8] = ["ADD", "ADC", "SUB", "SBB", "ANA", "XRA", "ORA", "CMP"];
const IMMEDIATE: [&str; 8] = ["ADI", "ACI", "SUI", "SBI", "ANI", "XRI", "ORI", "CPI"];
const ACCUMULATOR: [&str; 8] = ["RLC", "RRC", "RAL", "RAR", "DAA", "CMA", "STC", "CMC"];

/// Names the instruction at the start of the bytes; missing bytes count as zero.
pub fn name(bytes: &[u8]) -> Named {
    let at = |index: usize| bytes.get(index).copied().unwrap_or(0);
    let (name, length) = name_and_length(at(0), at(1));
    Named { name, length }
}

fn name_and_length(first: u8, second: u8) -> (String, usize) {
    let (high, low) = (usize::from(first >> 3 & 7), usize::from(first & 7));
    let pair = high >> 1;
    let condition = CONDITIONS[high];
    let plain = |name: &str, length| (name.to_string(), length);
    match first {
        0x00 => plain("NOP", 1),
        0x22 => plain("SHLD", 3),
        0x2A => plain("LHLD", 3),
        0x32 => plain("STA", 3),
        0x3A => plain("LDA", 3),
        0x01..=0x3F => match (low, high & 1) {
            (1, 0) => (format!("LXI {}", PAIRS[pair]), 3),
            (1, _) => (format!("DAD {}", PAIRS[pair]), 1),
            (2, 0) => (format!("STAX {}", PAIRS[pair]), 1),
            (2, _) => (format!("LDAX {}", PAIRS[pair]), 1),
            (3, 0) => (format!("INX {}", PAIRS[pair]), 1),
            (3, _) => (format!("DCX {}", PAIRS[pair]), 1),
            (4, _) => (format!("INR {}", REGISTERS[high]), 1),
            (5, _) => (format!("DCR {}", REGISTERS[high]), 1),
            (6, _) => (format!("MVI {}", REGISTERS[high]), 2),
            (7, _) => plain(ACCUMULATOR[high], 1),
            _ => plain("unknown", 1),
        },
        0x76 => plain("HLT", 1),
        0x40..=0x7F => (format!("MOV {},{}", REGISTERS[high], REGISTERS[low]), 1),
        0x80..=0xBF => (format!("{} {}", OPERATIONS[high], REGISTERS[low]), 1),
        0xC3 => plain("JMP", 3),
        0xC9 => plain("RET", 1),
        0xCD => plain("CALL", 3),
        0xD3 => plain("OUT", 2),
        0xDB => plain("IN", 2),
        0xE3 => plain("XTHL", 1),
        0xE9 => plain("PCHL", 1),
        0xEB => plain("XCHG", 1),
        0xF3 => plain("DI", 1),
        0xF9 => plain("SPHL", 1),
        0xFB => plain("EI", 1),
        0xED if second == 0xED => plain("CALLN", 3),
        0xED if second == 0xFD => plain("RETEM", 2),
        0xC0..=0xFF => match (low, high & 1) {
            (0, _) => (format!("R{condition}"), 1),
            (1, 0) => (format!("POP {}", PUSHED_PAIRS[pair]), 1),
            (2, _) => (format!("J{condition}"), 3),
            (4, _) => (format!("C{condition}"), 3),
            (5, 0) => (format!("PUSH {}", PUSHED_PAIRS[pair]), 1),
            (6, _) => plain(IMMEDIATE[high], 2),
            (7, _) => (format!("RST {high}"), 1),
            _ => plain("unknown", 1),
        },
    }
}
