//! A reader of Intel HEX of its own, line by line: it splits the text at its line ends first, and decodes whole lines.

/// A text is refused with a number, at a line that is counted from 1.
#[derive(Debug, PartialEq, Eq, Clone, Copy)]
pub struct Refusal {
    pub number: u8,
    pub line: usize,
}

const MALFORMED: u8 = 10;
const WRONG_SUM: u8 = 11;
const OUTSIDE: u8 = 12;
const TOP: usize = 0x10_0000;

struct Record {
    kind: u8,
    offset: usize,
    data: Vec<u8>,
    summed: bool,
}

/// A line without its end, decoded; `None` for what is no line that is taken.
fn decode(line: &[u8]) -> Option<Record> {
    let digits = line.strip_prefix(b":")?;
    if digits.len() % 2 != 0 || !digits.iter().all(u8::is_ascii_hexdigit) {
        return None;
    }
    let text = std::str::from_utf8(digits).ok()?;
    let bytes: Vec<u8> = (0..text.len())
        .step_by(2)
        .map(|i| u8::from_str_radix(&text[i..i + 2], 16).unwrap())
        .collect();
    let (&count, _) = bytes.split_first()?;
    if bytes.len() != count as usize + 5 {
        return None;
    }
    let record = Record {
        kind: bytes[3],
        offset: usize::from(bytes[1]) << 8 | usize::from(bytes[2]),
        data: bytes[4..bytes.len() - 1].to_vec(),
        summed: bytes.iter().fold(0u8, |sum, b| sum.wrapping_add(*b)) == 0,
    };
    let taken = match record.kind {
        0 => true,
        1 => record.data.is_empty() && record.offset == 0,
        2 => record.data.len() == 2 && record.offset == 0,
        _ => false,
    };
    taken.then_some(record)
}

/// Reads a text into an image whose first byte stands at `base`; a refusal leaves the image as it was.
pub fn read(text: &[u8], image: &mut [u8], base: usize) -> Result<(), Refusal> {
    let mut made = image.to_vec();
    let mut segment = 0;
    let mut rest = text;
    let mut line = 0;
    loop {
        line += 1;
        let refused = |number| Err(Refusal { number, line });
        let Some(end) = rest.iter().position(|c| *c == b'\n') else {
            return refused(MALFORMED);
        };
        let whole = &rest[..end];
        rest = &rest[end + 1..];
        let Some(record) = decode(whole.strip_suffix(b"\r").unwrap_or(whole)) else {
            return refused(MALFORMED);
        };
        if !record.summed {
            return refused(WRONG_SUM);
        }
        match record.kind {
            0 => {
                for (i, byte) in record.data.iter().enumerate() {
                    let address = segment * 16 + ((record.offset + i) & 0xFFFF);
                    match address.checked_sub(base).and_then(|at| made.get_mut(at)) {
                        Some(place) if address < TOP => *place = *byte,
                        _ => return refused(OUTSIDE),
                    }
                }
            }
            1 if rest.is_empty() => {
                image.copy_from_slice(&made);
                return Ok(());
            }
            1 => {
                return Err(Refusal {
                    number: MALFORMED,
                    line: line + 1,
                })
            }
            _ => segment = usize::from(record.data[0]) << 8 | usize::from(record.data[1]),
        }
    }
}
