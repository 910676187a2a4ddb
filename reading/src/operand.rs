//! Operands as the listing writes them.

/// How many bytes an operand in memory has.
#[derive(Clone, Copy, Debug, PartialEq)]
pub enum Size {
    Unsaid,
    Byte,
    Word,
    Pair,
}

/// `WORD DS1:[BW+IX+0012]` or `BYTE DS0:[0400]`: without registers the displacement is the offset itself.
#[derive(Clone, Debug, PartialEq)]
pub struct Memory {
    pub size: Size,
    pub segment: String,
    pub registers: Vec<String>,
    pub displacement: u16,
}

#[derive(Clone, Debug, PartialEq)]
pub enum Operand {
    Register(String),
    Segment(String),
    Memory(Memory),
    /// With the digits that were typed: two are a byte, four a word.
    Number(u16, String),
    /// The address that a near branch leads to.
    Near(u32),
    Far(u16, u16),
    /// PSW, R, CY, DIR, and the fixed numbers of `SHL AL,1` and `BRK 3`.
    Fixed(String),
}

const BYTES: [&str; 8] = ["AL", "CL", "DL", "BL", "AH", "CH", "DH", "BH"];
const WORDS: [&str; 8] = ["AW", "CW", "DW", "BW", "SP", "BP", "IX", "IY"];
const SEGMENTS: [&str; 4] = ["DS1", "PS", "SS", "DS0"];
const FIXED: [&str; 6] = ["PSW", "R", "CY", "DIR", "1", "3"];

pub fn is_register(text: &str) -> bool {
    BYTES.contains(&text) || WORDS.contains(&text)
}

/// Upper-case hex digits alone, `len` of them.
pub fn hex(text: &str, len: usize) -> Option<u32> {
    let digit = |c: u8| c.is_ascii_digit() || (b'A'..=b'F').contains(&c);
    if text.len() == len && text.bytes().all(digit) {
        u32::from_str_radix(text, 16).ok()
    } else {
        None
    }
}

fn memory(text: &str) -> Option<Memory> {
    let (size, place) = [
        ("BYTE ", Size::Byte),
        ("WORD ", Size::Word),
        ("DWORD ", Size::Pair),
    ]
    .iter()
    .find_map(|(word, size)| Some((*size, text.strip_prefix(word)?)))
    .unwrap_or((Size::Unsaid, text));
    let (segment, offset) = place.strip_suffix(']')?.split_once(":[")?;
    if !SEGMENTS.contains(&segment) {
        return None;
    }
    let mut found = Memory {
        size,
        segment: segment.to_string(),
        registers: Vec::new(),
        displacement: 0,
    };
    for part in offset.split('+') {
        if WORDS.contains(&part) {
            found.registers.push(part.to_string());
        } else {
            found.displacement = hex(part, 4)? as u16;
        }
    }
    Some(found)
}

pub fn operand(text: &str) -> Option<Operand> {
    if is_register(text) {
        return Some(Operand::Register(text.to_string()));
    }
    if SEGMENTS.contains(&text) {
        return Some(Operand::Segment(text.to_string()));
    }
    if FIXED.contains(&text) {
        return Some(Operand::Fixed(text.to_string()));
    }
    if let Some(value) = hex(text, 2).or(hex(text, 4)) {
        return Some(Operand::Number(value as u16, text.to_string()));
    }
    if let Some(address) = hex(text, 5) {
        return Some(Operand::Near(address));
    }
    if let Some((ps, pc)) = text.split_once(':') {
        if let (Some(ps), Some(pc)) = (hex(ps, 4), hex(pc, 4)) {
            return Some(Operand::Far(ps as u16, pc as u16));
        }
    }
    memory(text).map(Operand::Memory)
}

#[cfg(test)]
mod tests {
    use super::*;

    #[test]
    fn memory_forms() {
        let Some(Operand::Memory(m)) = operand("WORD SS:[BP+IX+FFFE]") else {
            panic!()
        };
        assert_eq!(
            (m.size, m.segment.as_str(), m.displacement),
            (Size::Word, "SS", 0xFFFE)
        );
        assert_eq!(m.registers, ["BP", "IX"]);
        let Some(Operand::Memory(m)) = operand("DS0:[0400]") else {
            panic!()
        };
        assert_eq!((m.size, m.displacement), (Size::Unsaid, 0x400));
        assert!(m.registers.is_empty());
    }

    #[test]
    fn numbers_by_their_digits() {
        assert_eq!(operand("FF"), Some(Operand::Number(255, "FF".to_string())));
        assert_eq!(operand("FFF12"), Some(Operand::Near(0xFFF12)));
        assert_eq!(operand("FFF0:0010"), Some(Operand::Far(0xFFF0, 0x10)));
        assert_eq!(operand("1"), Some(Operand::Fixed("1".to_string())));
    }

    #[test]
    fn what_no_listing_writes() {
        for text in [
            "",
            "ff",
            "123",
            "AX",
            "DS2:[IX]",
            "BYTE DS0:[IX",
            "DS0:[QQ]",
        ] {
            assert_eq!(operand(text), None, "{text}");
        }
    }
}
