//! Compares two engines' answers to one stream and says in words where they differ.

use crate::judge::case::{Call, Case, End};
use crate::judge::result::{fields, length_for, Field, Value};
use crate::judge::{names, names_8080};
use crate::memory::Memory;
use crate::state::PS;
use std::io::{self, Write};

const FLAG_NAMES: [(u16, &str); 10] = [
    (0, "CY"),
    (2, "P"),
    (4, "AC"),
    (6, "Z"),
    (7, "S"),
    (8, "BRK"),
    (9, "IE"),
    (10, "DIR"),
    (11, "V"),
    (15, "MD"),
];

/// Who gave which answers.
pub struct Answers<'a> {
    pub name: &'a str,
    pub bytes: &'a [u8],
}

#[derive(Default)]
pub struct Summary {
    pub cases: u64,
    pub mismatched: u64,
    /// how many cases there were of each call
    calls: [u64; 6],
}

/// Writes a line for each differing field, then how many cases there were of each call, and a last line that sums up.
/// The first case has this number.
pub fn diff(
    first: u64,
    mut cases: &[u8],
    mut left: Answers,
    mut right: Answers,
    output: &mut impl Write,
) -> io::Result<Summary> {
    let mut summary = Summary::default();
    loop {
        let case = match Case::read(&mut cases) {
            Ok(case) => case,
            Err(End::OfStream) => break,
            Err(End::Unfit(why)) => {
                writeln!(output, "the stream of cases ends early: {why}")?;
                break;
            }
            Err(End::Broken(error)) => return Err(error),
        };
        let number = first + summary.cases;
        summary.cases += 1;
        summary.calls[case.call as usize] += 1;
        let length = length_for(case.call);
        match (left.take(length), right.take(length)) {
            (Some(a), Some(b)) if a == b => {}
            (Some(a), Some(b)) => {
                summary.mismatched += 1;
                let names = (left.name, right.name);
                write_mismatch(number, &case, names, (a, b), output)?;
            }
            (a, b) => {
                summary.mismatched += 1;
                for (engine, answer) in [(left.name, a), (right.name, b)] {
                    if answer.is_none() {
                        writeln!(output, "case {number}: {engine} stopped before this case")?;
                    }
                }
                // what the other engine still answered has nothing to be compared with
                (left.bytes, right.bytes) = (&[], &[]);
                break;
            }
        }
    }
    for engine in [&left, &right] {
        if !engine.bytes.is_empty() {
            summary.mismatched += 1;
            let extra = engine.bytes.len();
            writeln!(
                output,
                "{} wrote {extra} bytes past the compared cases",
                engine.name
            )?;
        }
    }
    let [step, run, interrupt, reset, reading, quicker] = summary.calls;
    writeln!(
        output,
        "{step} step, {run} run, {interrupt} interrupt, {reset} reset, {reading} log reading, {quicker} quicker run"
    )?;
    writeln!(
        output,
        "{} cases compared, {} mismatched",
        summary.cases, summary.mismatched
    )?;
    Ok(summary)
}

impl<'a> Answers<'a> {
    /// Takes the next answer off the front, or nothing if it is cut off.
    fn take(&mut self, length: usize) -> Option<&'a [u8]> {
        let (answer, rest) = self.bytes.split_at_checked(length)?;
        self.bytes = rest;
        Some(answer)
    }
}

fn write_mismatch(
    number: u64,
    case: &Case,
    names: (&str, &str),
    answers: (&[u8], &[u8]),
    output: &mut impl Write,
) -> io::Result<()> {
    let what = describe(case);
    let (left, right) = (fields(case.call, answers.0), fields(case.call, answers.1));
    for (a, b) in left.iter().zip(&right).filter(|(a, b)| a != b) {
        writeln!(
            output,
            "case {number}: {what}: {} is {} by {}, {} by {}{}",
            a.name,
            in_words(a.value),
            names.0,
            in_words(b.value),
            names.1,
            differing_flags(a, b)
        )?;
    }
    Ok(())
}

fn in_words(value: Value) -> String {
    match value {
        Value::Decimal(number) => number.to_string(),
        Value::Register(word) => format!("{word:04X}h"),
        Value::Sum(sum) => format!("{sum:08X}h"),
    }
}

fn differing_flags(left: &Field, right: &Field) -> String {
    let (Value::Register(a), Value::Register(b)) = (left.value, right.value) else {
        return String::new();
    };
    if left.name != "PSW" {
        return String::new();
    }
    let flags: Vec<&str> = FLAG_NAMES
        .iter()
        .filter(|(bit, _)| (a ^ b) >> bit & 1 != 0)
        .map(|(_, name)| *name)
        .collect();
    format!(" (differing: {})", flags.join(" "))
}

/// The call and, where one is done, the first instruction.
fn describe(case: &Case) -> String {
    match case.call {
        Call::Step => format!("step of {}", first_instruction(case)),
        Call::Run | Call::QuickerRun => format!(
            "{} with budget {} from {}",
            if case.call == Call::Run {
                "run"
            } else {
                "quicker run"
            },
            case.budget,
            first_instruction(case)
        ),
        Call::Interrupt => {
            let kind = if case.may_be_masked {
                "maskable"
            } else {
                "not maskable"
            };
            format!("interrupt to vector {}, {kind}", case.vector)
        }
        Call::Reset => "reset".to_string(),
        Call::LogReading => format!(
            "log reading at place {} under the {} gap rule",
            case.state.log_place,
            case.gap_rule.name()
        ),
    }
}

fn first_instruction(case: &Case) -> String {
    let bytes = code_bytes(case);
    let named = if case.state.is_native() {
        names::name(&bytes)
    } else {
        names_8080::name(&bytes)
    };
    let shown: Vec<String> = bytes[..named.length]
        .iter()
        .map(|byte| format!("{byte:02X}"))
        .collect();
    format!("{} ({})", shown.join(" "), named.name)
}

fn code_bytes(case: &Case) -> Vec<u8> {
    let mut lent = case.buffers();
    let memory = Memory::new(&mut lent.ram, &lent.rom);
    (0..names::MOST_BYTES as u16)
        .map(|index| memory.read_byte(case.state.segment[PS], case.state.pc.wrapping_add(index)))
        .collect()
}
