//! The lines that the lister prints: address, bytes, words.
use crate::operand::{hex, operand, Operand};

/// The address space, which ends where an image ends.
pub const SPACE: u32 = 0x100000;
/// Where the words of a line begin.
const WORDS_AT: usize = 25;

#[derive(Clone, Debug, PartialEq)]
pub struct Instruction {
    /// REP, REPNE, REPC or REPNC before a block instruction.
    pub repeat: Option<String>,
    pub name: String,
    pub operands: Vec<Operand>,
}

#[derive(Clone, Debug, PartialEq)]
pub struct Line {
    pub text: String,
    pub address: u32,
    pub bytes: Vec<u8>,
    pub instruction: Instruction,
}

impl Line {
    /// The address behind this line; the space is a ring.
    pub fn next(&self) -> u32 {
        (self.address + self.bytes.len() as u32) % SPACE
    }
}

fn instruction(words: &str) -> Option<Instruction> {
    let mut rest = words;
    let mut repeat = None;
    if words.starts_with("REP") {
        let (first, behind) = words.split_once(' ')?;
        repeat = Some(first.to_string());
        rest = behind;
    }
    let (name, operands) = match rest.split_once(' ') {
        None => (rest, Vec::new()),
        Some((name, list)) => (name, list.split(',').map(operand).collect::<Option<_>>()?),
    };
    Some(Instruction {
        repeat,
        name: name.to_string(),
        operands,
    })
}

/// One line, without its end.
pub fn line(text: &str) -> Option<Line> {
    if !text.is_ascii() || text.len() <= WORDS_AT {
        return None;
    }
    let (head, words) = text.split_at(WORDS_AT);
    let address = hex(head.get(..5)?, 5)?;
    let digits = head.get(5..)?.strip_prefix(' ')?.trim_end_matches(' ');
    if digits.is_empty() || digits.len() % 2 != 0 {
        return None;
    }
    let bytes = (0..digits.len())
        .step_by(2)
        .map(|i| Some(hex(&digits[i..i + 2], 2)? as u8))
        .collect::<Option<Vec<_>>>()?;
    Some(Line {
        text: text.to_string(),
        address,
        bytes,
        instruction: instruction(words)?,
    })
}

/// A whole listing; otherwise the first line that is none, counted from 1.
pub fn listing(text: &str) -> Result<Vec<Line>, usize> {
    let mut lines: Vec<Line> = Vec::new();
    for (i, words) in text.lines().enumerate() {
        let found = line(words).ok_or(i + 1)?;
        if lines
            .last()
            .is_some_and(|last| last.next() != found.address)
        {
            return Err(i + 1);
        }
        lines.push(found);
    }
    match lines.last() {
        Some(last) if last.next() != 0 => Err(lines.len()),
        _ => Ok(lines),
    }
}

#[cfg(test)]
mod tests {
    use super::*;

    #[test]
    fn a_line_and_its_parts() {
        let found = line("FFF46 0F22               SUB4S BYTE DS1:[IY],BYTE DS0:[IX]").unwrap();
        assert_eq!((found.address, found.next()), (0xFFF46, 0xFFF48));
        assert_eq!(found.bytes, [0x0F, 0x22]);
        assert_eq!(found.instruction.name, "SUB4S");
        assert_eq!(found.instruction.operands.len(), 2);
    }

    #[test]
    fn a_repeat_and_a_byte() {
        let found = line("FFF35 F36C               REP INM BYTE DS1:[IY],DW").unwrap();
        assert_eq!(found.instruction.repeat.as_deref(), Some("REP"));
        assert_eq!(
            line("FFF79 FF                 DB FF")
                .unwrap()
                .instruction
                .name,
            "DB"
        );
    }

    #[test]
    fn what_is_no_listing() {
        let good = "FFFFE 90                 NOP\nFFFFF 90                 NOP\n";
        assert_eq!(listing(good).unwrap().len(), 2);
        assert_eq!(
            listing(&good[..27]),
            Err(1),
            "it ends before the space does"
        );
        assert_eq!(listing(&good.replace("FFFFF", "FFFFD")), Err(2), "a gap");
        assert_eq!(listing(&good.replace("NOP", "mov x")), Err(1));
        assert_eq!(listing(""), Ok(Vec::new()));
    }
}
