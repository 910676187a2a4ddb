//! The lister's reading against the engine's: which bytes are accepted, and how many of them are read.

use super::instruction::{read, NoInstruction};
use crate::judge::generate::encodings::PREFIXES;
use crate::judge::generate::random::Random;
use crate::machine::Machine;
use crate::refusal::Refusal;
use crate::state::{State, PS};

/// Longer than any instruction.
const LONGEST: usize = 16;

/// How many bytes the engine reads of an instruction, or why it refuses it.
fn length_in_the_engine(bytes: &[u8; LONGEST]) -> Result<usize, Refusal> {
    let mut state = State::after_reset();
    state.segment[PS] = 0;
    let mut ram = *bytes;
    let mut log = [0; 16];
    let mut machine = Machine::new(state, &mut ram, &[], &[0, 0], &mut log);
    machine.step()?;
    Ok(machine.now.fetched)
}

fn agrees(bytes: [u8; LONGEST]) {
    match (read(&bytes, 0), length_in_the_engine(&bytes)) {
        (Ok(instruction), Ok(length)) => {
            assert_eq!(instruction.length, length, "{bytes:02X?}");
            let whole = read(&bytes[..length], 0).map(|again| again.words);
            assert_eq!(whole, Ok(instruction.words));
            for cut in 0..length {
                let reading = read(&bytes[..cut], 0).map(|again| again.words);
                assert_eq!(reading, Err(NoInstruction::CutOff), "{bytes:02X?}");
            }
        }
        (Err(reading), Err(refusal)) => {
            assert_eq!(reading, NoInstruction::Refused(refusal), "{bytes:02X?}");
        }
        _ => panic!("{bytes:02X?} is accepted by one of the two alone"),
    }
}

/// The first bytes as given, the others random.
fn beginning_with(first: &[u8], random: &mut Random) -> [u8; LONGEST] {
    std::array::from_fn(|index| first.get(index).copied().unwrap_or_else(|| random.byte()))
}

#[test]
fn on_all_first_and_second_bytes_with_all_next_bytes() {
    let mut random = Random::for_case(1, 0);
    for byte in 0..=255 {
        for next in 0..=255 {
            agrees(beginning_with(&[byte, next], &mut random));
            agrees(beginning_with(&[0x0F, byte, next], &mut random));
        }
    }
}

#[test]
fn on_all_of_them_after_prefixes() {
    let mut random = Random::for_case(2, 0);
    for byte in 0..=255 {
        for next in 0..=255 {
            let prefixes: Vec<u8> = (0..3).map(|_| random.pick(&PREFIXES)).collect();
            for count in 1..=3 {
                let plain = [&prefixes[..count], &[byte, next]].concat();
                let second = [&prefixes[..count], &[0x0F, byte, next]].concat();
                agrees(beginning_with(&plain, &mut random));
                agrees(beginning_with(&second, &mut random));
            }
        }
    }
}

#[test]
fn on_all_rows_of_four_prefixes() {
    let mut random = Random::for_case(3, 0);
    for place in 0..PREFIXES.len().pow(4) {
        let row: [u8; 4] = std::array::from_fn(|index| {
            PREFIXES[place / PREFIXES.len().pow(index as u32) % PREFIXES.len()]
        });
        agrees(beginning_with(&row[..3], &mut random));
        agrees(beginning_with(&row, &mut random));
    }
}

#[test]
fn on_random_bytes() {
    let mut random = Random::for_case(4, 0);
    for _ in 0..1_000_000 {
        agrees(beginning_with(&[], &mut random));
    }
}
