//! Makes the call of each case on this engine.

use crate::judge::case::{Call, Case, End};
use crate::judge::result::CallResult;
use crate::machine::{Machine, RunReport, Tally};
use crate::portlog::{LogReader, Reading};
use crate::refusal::Refusal;
use std::io::{self, Read, Write};

/// Answers a stream to its end, which may lie in the middle of a case.
pub fn answer_stream(cases: &mut impl Read, results: &mut impl Write) -> io::Result<()> {
    loop {
        match Case::read(cases) {
            Ok(case) => results.write_all(&answer(&case))?,
            Err(End::OfStream) => return Ok(()),
            Err(End::Unfit(why)) => {
                eprintln!("judge: the stream ends here: {why}");
                return Ok(());
            }
            Err(End::Broken(error)) => return Err(error),
        }
    }
}

pub fn answer(case: &Case) -> Vec<u8> {
    let by = |call: &dyn Fn(&mut Machine) -> RunReport| answer_call(case, call);
    match case.call {
        Call::Step => by(&|machine| report(machine.step(), 1)),
        // an interpreter without readings to reuse has one way to run
        Call::Run | Call::QuickerRun => by(&|machine| machine.run(case.budget)),
        Call::Interrupt => {
            by(&|machine| report(machine.interrupt(case.vector, case.may_be_masked), 0))
        }
        Call::Reset => by(&|machine| {
            machine.reset();
            report(Ok(Tally::default()), 0)
        }),
        Call::LogReading => answer_reading(case),
    }
}

/// The report of a call that, when done, counts as so many steps.
fn report(outcome: Result<Tally, Refusal>, steps: u32) -> RunReport {
    RunReport {
        refusal: outcome.err(),
        steps: if outcome.is_ok() { steps } else { 0 },
        tally: outcome.unwrap_or_default(),
    }
}

fn answer_call(case: &Case, call: &dyn Fn(&mut Machine) -> RunReport) -> Vec<u8> {
    let mut lent = case.buffers();
    let mut machine = Machine::new(
        case.state.clone(),
        &mut lent.ram,
        &lent.rom,
        &case.tape,
        &mut lent.log,
    );
    let report = call(&mut machine);
    let state = machine.state;
    let result = CallResult {
        answer: report.refusal.map_or(0, Refusal::number),
        steps: report.steps,
        tally: report.tally,
        state: &state,
        ram: &lent.ram,
        log: &lent.log,
    };
    result.bytes()
}

fn answer_reading(case: &Case) -> Vec<u8> {
    let lent = case.buffers();
    let mut reader = LogReader::new(&lent.log, case.state.log_place as usize, case.gap_rule);
    let reading = reader.read();
    let place = reader.place() as u32;
    let (kind, numbers) = match reading {
        Reading::Record(record) => (0, [record.gap, record.key, record.value, place]),
        Reading::End => (1, [0; 4]),
        Reading::Refused(Refusal::MalformedRecord) => (9, [0, 0, 0, place]),
        Reading::Refused(refusal) => (refusal.number(), [0; 4]),
    };
    let mut bytes = vec![kind];
    for number in numbers {
        bytes.extend(number.to_le_bytes());
    }
    bytes
}
