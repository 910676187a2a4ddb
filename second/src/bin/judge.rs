//! Makes, answers and compares streams of cases, and lists port logs.

use second::gap_rule::GapRule;
use second::judge::answer::answer_stream;
use second::judge::diff::{diff, Answers};
use second::judge::generate::Stream;
use second::listing;
use std::io::{self, BufReader, BufWriter, Read, Write};
use std::process::ExitCode;

const USAGE: &str = "usage: judge generate SEED COUNT [FIRST [STREAM]] | judge answer | \
                     judge diff CASES RESULT_A RESULT_B [FIRST] | judge list old|new";

const MISMATCHED: u8 = 1;
const UNUSABLE: u8 = 2;

fn main() -> ExitCode {
    let words: Vec<String> = std::env::args().skip(1).collect();
    let words: Vec<&str> = words.iter().map(String::as_str).collect();
    let outcome = match words[..] {
        ["generate", seed, count] => write_cases(seed, count, "0", "calls"),
        ["generate", seed, count, first] => write_cases(seed, count, first, "calls"),
        ["generate", seed, count, first, stream] => write_cases(seed, count, first, stream),
        ["answer"] => answer_input(),
        ["diff", cases, left, right] => compare(cases, left, right, "0"),
        ["diff", cases, left, right, first] => compare(cases, left, right, first),
        ["list", "old"] => list_input(GapRule::Old),
        ["list", "new"] => list_input(GapRule::New),
        _ => Err(USAGE.to_string()),
    };
    outcome.unwrap_or_else(|problem| {
        eprintln!("judge: {problem}");
        ExitCode::from(UNUSABLE)
    })
}

fn write_cases(seed: &str, count: &str, first: &str, stream: &str) -> Result<ExitCode, String> {
    let seed = number(seed)?;
    let count = number(count)?;
    let first = number(first)?;
    let stream = Stream::of_word(stream).ok_or(format!("there is no stream of {stream}"))?;
    let mut output = BufWriter::new(io::stdout().lock());
    stream
        .write(seed, first, count, &mut output)
        .and_then(|()| output.flush())
        .map_err(|error| error.to_string())?;
    Ok(ExitCode::SUCCESS)
}

fn number(word: &str) -> Result<u64, String> {
    word.parse()
        .map_err(|_| format!("{word} is not a number that can be used"))
}

fn answer_input() -> Result<ExitCode, String> {
    let mut input = BufReader::new(io::stdin().lock());
    let mut output = BufWriter::new(io::stdout().lock());
    answer_stream(&mut input, &mut output)
        .and_then(|()| output.flush())
        .map_err(|error| error.to_string())?;
    Ok(ExitCode::SUCCESS)
}

fn compare(cases: &str, left: &str, right: &str, first: &str) -> Result<ExitCode, String> {
    let first = number(first)?;
    let read = |path: &str| std::fs::read(path).map_err(|error| format!("{path}: {error}"));
    let (cases, left_bytes, right_bytes) = (read(cases)?, read(left)?, read(right)?);
    let left = Answers {
        name: left,
        bytes: &left_bytes,
    };
    let right = Answers {
        name: right,
        bytes: &right_bytes,
    };
    let mut output = BufWriter::new(io::stdout().lock());
    let summary = diff(first, &cases, left, right, &mut output)
        .and_then(|summary| output.flush().map(|()| summary))
        .map_err(|error| error.to_string())?;
    Ok(if summary.mismatched == 0 {
        ExitCode::SUCCESS
    } else {
        ExitCode::from(MISMATCHED)
    })
}

fn list_input(rule: GapRule) -> Result<ExitCode, String> {
    let mut log = Vec::new();
    // one byte past the limit is enough to see that it is too long
    let mut input = io::stdin().lock().take(listing::LONGEST_LOG as u64 + 1);
    input
        .read_to_end(&mut log)
        .and_then(|_| io::stdout().write_all(listing::list(&log, rule).as_bytes()))
        .map_err(|error| error.to_string())?;
    Ok(ExitCode::SUCCESS)
}
