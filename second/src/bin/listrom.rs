//! Lists a ROM image, and rebuilds the image from such lines.

use second::rom_listing::{list, rebuild, IMAGE_TOO_LONG, LONGEST_IMAGE, NOT_AS_LISTED};
use std::io::{self, Read, Write};
use std::process::ExitCode;

const USAGE: &str = "usage: listrom list < IMAGE > LINES | listrom rebuild < LINES > IMAGE";

const UNUSABLE: u8 = 2;
const REFUSED: u8 = 3;

fn main() -> ExitCode {
    let words: Vec<String> = std::env::args().skip(1).collect();
    let words: Vec<&str> = words.iter().map(String::as_str).collect();
    let outcome = match words[..] {
        // one byte past the limit is enough to see that it is too long
        ["list"] => answer(io::stdin().take(LONGEST_IMAGE as u64 + 1), list),
        ["rebuild"] => answer(io::stdin(), rebuild),
        _ => Err(USAGE.to_string()),
    };
    outcome.unwrap_or_else(|problem| {
        eprintln!("listrom: {problem}");
        ExitCode::from(UNUSABLE)
    })
}

fn answer(
    mut input: impl Read,
    work: fn(&[u8]) -> Result<Vec<u8>, u8>,
) -> Result<ExitCode, String> {
    let mut bytes = Vec::new();
    input
        .read_to_end(&mut bytes)
        .map_err(|error| error.to_string())?;
    match work(&bytes) {
        Ok(made) => {
            let mut output = io::stdout();
            output
                .write_all(&made)
                .and_then(|()| output.flush())
                .map_err(|error| error.to_string())?;
            Ok(ExitCode::SUCCESS)
        }
        Err(number) => {
            eprintln!("listrom: refused with {number}: {}", why(number));
            Ok(ExitCode::from(REFUSED))
        }
    }
}

fn why(number: u8) -> &'static str {
    match number {
        IMAGE_TOO_LONG => "the image is over 32,768 bytes",
        NOT_AS_LISTED => {
            "a line is not what the listing prints there, or the lines stop before FFFFF"
        }
        _ => "no reason is known",
    }
}
