//! Plays a ROM over a tape, writes the port log and says why it stopped.

use second::memory::ADDRESS_SPACE;
use second::play::play;
use std::process::ExitCode;

const USAGE: &str = "usage: play ROM TAPE LOG RAM_BYTES STEPS";

const UNUSABLE: u8 = 2;

fn main() -> ExitCode {
    let words: Vec<String> = std::env::args().skip(1).collect();
    let words: Vec<&str> = words.iter().map(String::as_str).collect();
    let outcome = match words[..] {
        [rom, tape, log, ram_bytes, steps] => play_files(rom, tape, log, ram_bytes, steps),
        _ => Err(USAGE.to_string()),
    };
    match outcome {
        Ok(summary) => {
            println!("{summary}");
            ExitCode::SUCCESS
        }
        Err(problem) => {
            eprintln!("play: {problem}");
            ExitCode::from(UNUSABLE)
        }
    }
}

fn play_files(
    rom: &str,
    tape: &str,
    log: &str,
    ram_bytes: &str,
    steps: &str,
) -> Result<String, String> {
    let (rom, tape) = (read(rom)?, read(tape)?);
    let (ram_bytes, steps) = (number(ram_bytes)?, number(steps)?);
    // more could not be lent anyway, and must not be reserved first
    let ram_bytes = usize::try_from(ram_bytes)
        .ok()
        .filter(|bytes| bytes.saturating_add(rom.len()) <= ADDRESS_SPACE)
        .ok_or("RAM and ROM exceed the address space")?;
    let played = play(&rom, &tape, ram_bytes, steps);
    std::fs::write(log, &played.log).map_err(|error| format!("{log}: {error}"))?;
    let (answer, words) = played.why_it_stopped();
    let (steps, bus_cycles) = (played.steps, played.bus_cycles);
    let dropped = match played.dropped_bytes {
        0 => String::new(),
        bytes => format!(", dropped {bytes} bytes"),
    };
    Ok(format!(
        "stopped with {answer}: {words}; {steps} steps, {bus_cycles} bus cycles{dropped}"
    ))
}

fn read(path: &str) -> Result<Vec<u8>, String> {
    std::fs::read(path).map_err(|error| format!("{path}: {error}"))
}

fn number(word: &str) -> Result<u64, String> {
    word.parse()
        .map_err(|_| format!("{word} is not a number that can be used"))
}
