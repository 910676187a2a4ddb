//! A ROM run from reset over a tape, as far as it goes.

use crate::listing::LONGEST_LOG;
use crate::machine::Machine;
use crate::refusal::Refusal;
use crate::state::State;

#[derive(Clone, Debug, PartialEq, Eq)]
pub struct Played {
    /// Why it stopped before the steps were spent.
    pub refusal: Option<Refusal>,
    pub steps: u64,
    pub bus_cycles: u64,
    pub dropped_bytes: u64,
    pub log: Vec<u8>,
}

impl Played {
    /// The answer's number and what it means.
    pub fn why_it_stopped(&self) -> (u8, &'static str) {
        let words = match self.refusal {
            None => "the steps are spent",
            Some(Refusal::TooMuchMemory) => "RAM and ROM exceed the address space",
            Some(Refusal::BadState) => "the state is bad",
            Some(Refusal::UnknownInstruction) => "the bytes name no instruction",
            Some(Refusal::FourthPrefix) => "a fourth prefix was met",
            Some(Refusal::TapeTooShort) => "the tape is too short",
            Some(Refusal::LogTooFull) => "the log is full",
            Some(Refusal::InterruptMasked) => "the interrupt is masked",
            Some(Refusal::MachineHalted) => "the machine is halted",
            Some(Refusal::MalformedRecord) => "a log record is malformed",
            Some(Refusal::InterruptHeldOff) => "the interrupt is held off",
        };
        (self.refusal.map_or(0, Refusal::number), words)
    }
}

/// Plays until a step is refused or all are done; the log has room for what can be listed.
pub fn play(rom: &[u8], tape: &[u8], ram_bytes: usize, steps: u64) -> Played {
    let mut ram = vec![0; ram_bytes];
    let mut log = vec![0; LONGEST_LOG];
    let mut played = Played {
        refusal: None,
        steps: 0,
        bus_cycles: 0,
        dropped_bytes: 0,
        log: Vec::new(),
    };
    let mut machine = Machine::new(State::after_reset(), &mut ram, rom, tape, &mut log);
    loop {
        let budget = u16::try_from(steps - played.steps).unwrap_or(u16::MAX);
        let report = machine.run(budget);
        played.refusal = report.refusal;
        played.steps += u64::from(report.steps);
        played.bus_cycles += u64::from(report.tally.bus_cycles);
        played.dropped_bytes += u64::from(report.tally.dropped_bytes);
        if played.refusal.is_some() || played.steps == steps {
            break;
        }
    }
    let written = machine.state.log_place as usize;
    log.truncate(written);
    played.log = log;
    played
}
