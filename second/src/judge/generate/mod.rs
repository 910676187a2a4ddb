//! Makes case streams: a walk over every opcode, mixed with cases aimed at single rules.

mod card_programs;
mod cards;
mod control;
mod data;
mod draft;
mod drops;
mod edges;
pub mod encodings;
mod gaps;
mod logs;
mod programs;
pub mod random;
mod rewriting;
mod runs;

use crate::judge::case::{Call, Case};
use draft::Draft;
use random::Random;
use std::io::{self, Write};

type Family = fn(&mut Draft);

/// Every so many cases one is the next of the walk.
const WALK_PERIOD: u64 = 4;

/// Families of cases and the share that each gets among the others.
const FAMILIES: [(u32, Family); 25] = [
    (70, any_instruction),
    (45, data::shift),
    (45, data::divide),
    (20, data::multiply),
    (25, data::adjust),
    (40, data::decimal_strings),
    (35, data::bit_field),
    (25, data::bounded_arithmetic),
    (60, data::block),
    (65, data::port),
    (40, control::stack),
    (20, control::prepare),
    (30, control::trap),
    (20, control::popped_flags),
    (20, control::segment_load),
    (30, control::prefix_set),
    (45, control::interrupt),
    (5, control::reset),
    (50, edges::code_at_an_edge),
    (30, edges::operand_at_an_edge),
    (40, edges::bad_arguments),
    (40, drops::store),
    (20, drops::push),
    (80, logs::reading),
    (100, programs::run),
];

/// What a stream is made of.
#[derive(Clone, Copy, Debug, PartialEq, Eq)]
pub enum Stream {
    /// Every call but the quicker run.
    Calls,
    Runs,
    /// The same cases as runs, with the other call.
    QuickerRuns,
    /// Every call but the quicker run, in the 8080 mode and across its borders.
    Cards,
    /// The same cases, all as runs.
    CardRuns,
    QuickerCardRuns,
}

impl Stream {
    pub fn of_word(word: &str) -> Option<Stream> {
        match word {
            "calls" => Some(Stream::Calls),
            "runs" => Some(Stream::Runs),
            "quicker-runs" => Some(Stream::QuickerRuns),
            "cards" => Some(Stream::Cards),
            "card-runs" => Some(Stream::CardRuns),
            "quicker-card-runs" => Some(Stream::QuickerCardRuns),
            _ => None,
        }
    }

    /// The case of a number; it does not depend on how many are made.
    pub fn case(self, seed: u64, number: u64) -> Case {
        match self {
            Stream::Calls => {
                let mut draft = Draft::new(Random::for_case(seed, number));
                any_case(&mut draft, seed, number);
                draft.case
            }
            Stream::Runs => runs::case(seed, number, Call::Run),
            Stream::QuickerRuns => runs::case(seed, number, Call::QuickerRun),
            Stream::Cards => cards::case(seed, number),
            Stream::CardRuns => as_run(cards::case(seed, number), Call::Run, number),
            Stream::QuickerCardRuns => as_run(cards::case(seed, number), Call::QuickerRun, number),
        }
    }

    /// So many cases of a seed, from the case of the first number on.
    pub fn write(
        self,
        seed: u64,
        first: u64,
        count: u64,
        output: &mut impl Write,
    ) -> io::Result<()> {
        for number in first..first.saturating_add(count) {
            self.case(seed, number).write(output)?;
        }
        Ok(())
    }
}

/// A case of any call as a run; one that was none gets a budget of a few steps.
fn as_run(mut case: Case, way: Call, number: u64) -> Case {
    if case.call != Call::Run {
        case.budget = 1 + (number % 3) as u16;
    }
    case.call = way;
    case
}

/// The next opcode of the walk, or a case of a family.
fn any_case(draft: &mut Draft, seed: u64, number: u64) {
    match number % WALK_PERIOD {
        0 => {
            let start = seed.wrapping_mul(100_003);
            let opcode = encodings::walk(start.wrapping_add(number / WALK_PERIOD));
            instruction(draft, opcode);
        }
        _ => {
            let family = draw(&FAMILIES, &mut draft.random);
            family(draft);
        }
    }
}

/// One of the families, each by its share.
fn draw(families: &[(u32, Family)], random: &mut Random) -> Family {
    let all_shares = families.iter().map(|(share, _)| share).sum();
    let mut lot = random.below(all_shares);
    for &(share, family) in families {
        if lot < share {
            return family;
        }
        lot -= share;
    }
    unreachable!("a lot lies below the sum of all shares")
}

fn any_instruction(draft: &mut Draft) {
    let opcode = encodings::random_opcode(&mut draft.random);
    instruction(draft, opcode);
}

/// An opcode over random state and data, now and then with prefixes.
fn instruction(draft: &mut Draft, opcode: Vec<u8>) {
    let mut code = Vec::new();
    if draft.random.one_in(3) {
        let count = draft.random.between(1, 3);
        code = encodings::prefixes(&mut draft.random, count);
    }
    let operands = opcode.last().copied().unwrap_or(0);
    let length = opcode.len();
    let bytes = encodings::with_tail(opcode, &mut draft.random);
    draft.put_data();
    if length > 1 {
        let displacement = u16::from_le_bytes([bytes[length], bytes[length + 1]]);
        draft.put_operand_data(operands, displacement);
    }
    code.extend(bytes);
    draft.put_code(&code);
}
