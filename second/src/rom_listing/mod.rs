//! The text that lists a ROM image, and the image that such a text was made from.

#[cfg(test)]
mod agreement;
mod instruction;

use crate::memory::ADDRESS_SPACE;
use std::fmt::Write;

/// A longer image is not listed at all.
pub const LONGEST_IMAGE: usize = 32_768;

/// The answer to lines that the listing would not print.
pub const NOT_AS_LISTED: u8 = 16;
/// The answer to an image over the limit.
pub const IMAGE_TOO_LONG: u8 = 17;

/// Where the bytes of a line begin: after five digits and a space.
const BYTES_COLUMN: usize = 6;
/// Where the words of every line begin: the longest instruction's bytes and a space fit before them.
const WORDS_COLUMN: usize = 25;

/// One line for each instruction of an image that ends at FFFFFh.
pub fn list(image: &[u8]) -> Result<Vec<u8>, u8> {
    if image.len() > LONGEST_IMAGE {
        return Err(IMAGE_TOO_LONG);
    }
    let mut lines = Vec::new();
    let mut rest = image;
    while !rest.is_empty() {
        let address = ADDRESS_SPACE - rest.len();
        let (length, words) = match instruction::read(rest, address) {
            Ok(instruction) => (instruction.length, instruction.words),
            Err(_) => (1, format!("DB {:02X}", rest[0])),
        };
        let (bytes, after) = rest.split_at(length);
        let line = format!("{address:05X} {}", digits(bytes));
        lines.extend(format!("{line:WORDS_COLUMN$}{words}\n").bytes());
        rest = after;
    }
    Ok(lines)
}

/// The image whose listing these lines are, byte for byte.
pub fn rebuild(lines: &[u8]) -> Result<Vec<u8>, u8> {
    let image = bytes_of(lines).ok_or(NOT_AS_LISTED)?;
    // an image that is too long has no listing, so these lines are not one
    match list(&image) {
        Ok(listed) if listed == lines => Ok(image),
        _ => Err(NOT_AS_LISTED),
    }
}

fn digits(bytes: &[u8]) -> String {
    bytes.iter().fold(String::new(), |mut text, byte| {
        write!(text, "{byte:02X}").expect("a string takes all that is written");
        text
    })
}

/// What stands in the column of bytes; nothing else of a line is looked at.
fn bytes_of(lines: &[u8]) -> Option<Vec<u8>> {
    let mut image = Vec::new();
    for line in lines.split_inclusive(|&byte| byte == b'\n') {
        let column = line
            .get(BYTES_COLUMN..)?
            .split(|&byte| byte == b' ')
            .next()?;
        for pair in column.chunks(2) {
            let pair = std::str::from_utf8(pair).ok()?;
            image.push(u8::from_str_radix(pair, 16).ok()?);
        }
    }
    Some(image)
}
