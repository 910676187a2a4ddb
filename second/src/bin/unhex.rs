//! Reads Intel HEX into an image, and makes texts to try readers with.

use second::intel_hex::read;
use std::io::Write;
use std::process::ExitCode;

const USAGE: &str = "usage: unhex read TEXT IMAGE BASE > IMAGE | unhex generate SEED COUNT FOLDER";

fn main() -> ExitCode {
    let words: Vec<String> = std::env::args().skip(1).collect();
    let words: Vec<&str> = words.iter().map(String::as_str).collect();
    let outcome = match words[..] {
        ["read", text, image, base] => answer(text, image, base),
        ["generate", seed, count, folder] => generate(seed, count, folder),
        _ => Err(USAGE.to_string()),
    };
    outcome.unwrap_or_else(|problem| {
        eprintln!("unhex: {problem}");
        ExitCode::from(2)
    })
}

fn answer(text: &str, image: &str, base: &str) -> Result<ExitCode, String> {
    let text = std::fs::read(text).map_err(|e| e.to_string())?;
    let mut image = std::fs::read(image).map_err(|e| e.to_string())?;
    let base = base.parse().map_err(|_| USAGE)?;
    if let Err(refusal) = read(&text, &mut image, base) {
        println!("{} {}", refusal.number, refusal.line);
        return Ok(ExitCode::from(3));
    }
    std::io::stdout()
        .write_all(&image)
        .map_err(|e| e.to_string())?;
    Ok(ExitCode::SUCCESS)
}

/// A plain generator of numbers: the same seed gives the same texts.
struct Numbers(u64);

impl Numbers {
    fn below(&mut self, n: u64) -> u64 {
        self.0 = self
            .0
            .wrapping_mul(6364136223846793005)
            .wrapping_add(1442695040888963407);
        (self.0 >> 33) % n
    }
}

fn line(kind: u8, offset: u64, data: &[u8], upper: bool, end: &str) -> String {
    let mut bytes = vec![data.len() as u8, (offset >> 8) as u8, offset as u8, kind];
    bytes.extend_from_slice(data);
    let sum = bytes.iter().fold(0u8, |sum, b| sum.wrapping_add(*b));
    bytes.push(sum.wrapping_neg());
    let digits: String = bytes
        .iter()
        .map(|b| {
            if upper {
                format!("{b:02X}")
            } else {
                format!("{b:02x}")
            }
        })
        .collect();
    format!(":{digits}{end}")
}

/// A text for an image of 4,096 bytes at F0000h; about half of them are damaged at one place.
fn text(numbers: &mut Numbers) -> Vec<u8> {
    let upper = numbers.below(2) == 0;
    let end = if numbers.below(2) == 0 { "\n" } else { "\r\n" };
    let mut text = line(2, 0, &[0xF0, 0x00], upper, end);
    for _ in 0..numbers.below(12) {
        if numbers.below(6) == 0 {
            let segment = 0xF000 - numbers.below(3) * 16;
            text += &line(2, 0, &[(segment >> 8) as u8, segment as u8], upper, end);
        }
        let data: Vec<u8> = (0..numbers.below(20))
            .map(|_| numbers.below(256) as u8)
            .collect();
        let offset = if numbers.below(30) == 0 {
            0xFFF8
        } else {
            512 + numbers.below(3500)
        };
        text += &line(0, offset, &data, upper, end);
    }
    text += &line(1, 0, &[], upper, end);
    let mut text = text.into_bytes();
    match numbers.below(8) {
        0 => {
            let at = numbers.below(text.len() as u64) as usize;
            text[at] = b"0123456789ABCDEFabcdef:\n\r Gg/@`"[numbers.below(31) as usize];
        }
        1 => {
            text.remove(numbers.below(text.len() as u64) as usize);
        }
        2 => {
            let at = numbers.below(text.len() as u64) as usize;
            text.insert(at, b"0F:\n\r"[numbers.below(5) as usize]);
        }
        3 => text.truncate(numbers.below(text.len() as u64) as usize),
        _ => {}
    }
    text
}

fn generate(seed: &str, count: &str, folder: &str) -> Result<ExitCode, String> {
    let mut numbers = Numbers(seed.parse().map_err(|_| USAGE)?);
    let count: usize = count.parse().map_err(|_| USAGE)?;
    for i in 0..count {
        std::fs::write(format!("{folder}/{i}.hex"), text(&mut numbers))
            .map_err(|e| e.to_string())?;
    }
    Ok(ExitCode::SUCCESS)
}
