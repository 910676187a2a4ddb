//! The public calls: step, run, interrupt and reset; and what every instruction uses.

use crate::memory::Memory;
use crate::portlog::Record;
use crate::refusal::Refusal;
use crate::state::{State, BRK, IE, MODE, PS, SP, SS};
use crate::width::Width;
use std::ops::AddAssign;

const SINGLE_STEP_VECTOR: u8 = 1;

/// What the accesses of a call come to.
#[derive(Clone, Copy, Debug, Default, PartialEq, Eq)]
pub struct Tally {
    pub bus_cycles: u32,
    /// Bytes that were written where no RAM is, at each write anew.
    pub dropped_bytes: u32,
}

impl AddAssign for Tally {
    fn add_assign(&mut self, other: Tally) {
        self.bus_cycles += other.bus_cycles;
        self.dropped_bytes += other.dropped_bytes;
    }
}

/// Whether an instruction was done or why it was refused.
pub(crate) type Outcome = Result<(), Refusal>;

/// The condition under which a repeated comparison goes on.
#[derive(Clone, Copy)]
pub(crate) enum GoOnWhile {
    Zero,
    NotZero,
    Carry,
    NotCarry,
}

pub struct Machine<'a> {
    pub state: State,
    pub(crate) memory: Memory<'a>,
    tape: &'a [u8],
    log: &'a mut [u8],
    pub(crate) now: Now,
}

/// What belongs to the step being done alone.
pub(crate) struct Now {
    /// The PC that is due when the step ends; until then it runs over the instruction's bytes.
    pub next_pc: u16,
    pub prefixes: u32,
    pub segment_prefix: Option<usize>,
    pub repeat: Option<GoOnWhile>,
    tally: Tally,
    recorded: bool,
    trapped: bool,
    /// A MOV or POP into a segment register; interrupts and the single-step trap wait for the next step.
    pub loads_segment: bool,
    /// How many bytes the instruction has, for tests alone.
    #[cfg(test)]
    pub fetched: usize,
}

impl Now {
    fn at(pc: u16) -> Now {
        Now {
            next_pc: pc,
            prefixes: 0,
            segment_prefix: None,
            repeat: None,
            tally: Tally::default(),
            recorded: false,
            trapped: false,
            loads_segment: false,
            #[cfg(test)]
            fetched: 0,
        }
    }
}

#[derive(Clone, Copy, Debug, PartialEq, Eq)]
pub struct RunReport {
    /// Why the run stopped before its budget was spent.
    pub refusal: Option<Refusal>,
    pub steps: u32,
    pub tally: Tally,
}

impl<'a> Machine<'a> {
    pub fn new(
        state: State,
        ram: &'a mut [u8],
        rom: &'a [u8],
        tape: &'a [u8],
        log: &'a mut [u8],
    ) -> Machine<'a> {
        let now = Now::at(state.pc);
        Machine {
            state,
            memory: Memory::new(ram, rom),
            tape,
            log,
            now,
        }
    }

    pub fn reset(&mut self) {
        self.state = State::after_reset();
    }

    /// Does one instruction and gives its tally; a refusal changes nothing.
    pub fn step(&mut self) -> Result<Tally, Refusal> {
        self.check_what_was_lent()?;
        self.step_of_a_good_state()
    }

    pub fn run(&mut self, budget: u16) -> RunReport {
        let mut report = RunReport {
            refusal: self.check_what_was_lent().err(),
            steps: 0,
            tally: Tally::default(),
        };
        while report.refusal.is_none() && report.steps < u32::from(budget) {
            // a finished step leaves a good state, so it need not be checked again
            match self.step_of_a_good_state() {
                Ok(tally) => {
                    report.steps += 1;
                    report.tally += tally;
                }
                Err(refusal) => report.refusal = Some(refusal),
            }
        }
        report
    }

    /// Enters an interrupt and gives its tally; a refusal changes nothing.
    pub fn interrupt(&mut self, vector: u8, may_be_masked: bool) -> Result<Tally, Refusal> {
        self.check_what_was_lent()?;
        if self.state.after_segment_load {
            return Err(Refusal::InterruptHeldOff);
        }
        if may_be_masked && !self.state.flag(IE) {
            return Err(Refusal::InterruptMasked);
        }
        self.now = Now::at(self.state.pc);
        self.trap(vector);
        self.state.pc = self.now.next_pc;
        self.state.halted = false;
        Ok(self.now.tally)
    }

    fn check_what_was_lent(&self) -> Outcome {
        if !self.memory.fits_the_address_space() {
            return Err(Refusal::TooMuchMemory);
        }
        let state = &self.state;
        let good = state.fixed_bits_are_right()
            && state.tape_place as usize <= self.tape.len()
            && state.log_place as usize <= self.log.len()
            && !(state.after_segment_load && state.halted);
        if good {
            Ok(())
        } else {
            Err(Refusal::BadState)
        }
    }

    fn step_of_a_good_state(&mut self) -> Result<Tally, Refusal> {
        if self.state.halted {
            return Err(Refusal::MachineHalted);
        }
        self.now = Now::at(self.state.pc);
        let single_step = self.state.flag(BRK);
        if self.state.is_native() {
            self.execute()?;
        } else {
            self.execute_8080()?;
        }
        if single_step && !self.now.trapped && !self.now.loads_segment {
            self.trap(SINGLE_STEP_VECTOR);
            self.state.halted = false;
        }
        self.state.after_segment_load = self.now.loads_segment;
        self.state.pc = self.now.next_pc;
        self.state.count = if self.now.recorded {
            0
        } else {
            self.state.count.saturating_add(1)
        };
        Ok(self.now.tally)
    }

    /// Enters native mode, from whichever mode the saved PSW has.
    pub(crate) fn trap(&mut self, vector: u8) {
        self.go_to_vector(vector, |state| {
            state.set_flag(IE, false);
            state.set_flag(BRK, false);
            state.set_flag(MODE, true);
        });
        self.now.trapped = true;
    }

    /// Saves PSW, PS and PC on the native stack and goes where the vector says; PSW changes once it is saved.
    pub(crate) fn go_to_vector(&mut self, vector: u8, change_psw: fn(&mut State)) {
        let entry = u16::from(vector) * 4;
        let pc: u16 = self.load(0, entry);
        let ps: u16 = self.load(0, entry + 2);
        self.push(self.state.psw);
        change_psw(&mut self.state);
        self.push(self.state.segment[PS]);
        self.state.segment[PS] = ps;
        self.push(self.now.next_pc);
        self.now.next_pc = pc;
    }

    pub(crate) fn fetch_byte(&mut self) -> u8 {
        let byte = self
            .memory
            .read_byte(self.state.segment[PS], self.now.next_pc);
        self.now.next_pc = self.now.next_pc.wrapping_add(1);
        #[cfg(test)]
        {
            self.now.fetched += 1;
        }
        byte
    }

    pub(crate) fn fetch_word(&mut self) -> u16 {
        let low = self.fetch_byte();
        let high = self.fetch_byte();
        u16::from_le_bytes([low, high])
    }

    /// A byte widened with its sign.
    pub(crate) fn fetch_signed_byte(&mut self) -> u16 {
        self.fetch_byte() as i8 as u16
    }

    pub(crate) fn load<W: Width>(&mut self, segment: u16, offset: u16) -> W {
        self.now.tally.bus_cycles += W::bus_cycles(offset);
        W::read(&self.memory, segment, offset)
    }

    pub(crate) fn store<W: Width>(&mut self, segment: u16, offset: u16, value: W) {
        self.now.tally.bus_cycles += W::bus_cycles(offset);
        self.now.tally.dropped_bytes += W::write(&mut self.memory, segment, offset, value);
    }

    pub(crate) fn push(&mut self, word: u16) {
        self.state.general[SP] = self.state.general[SP].wrapping_sub(2);
        self.store(self.state.segment[SS], self.state.general[SP], word);
    }

    pub(crate) fn pop(&mut self) -> u16 {
        let word = self.load(self.state.segment[SS], self.state.general[SP]);
        self.state.general[SP] = self.state.general[SP].wrapping_add(2);
        word
    }

    /// Takes the value from the tape; nothing is used up when tape or log is too short.
    pub(crate) fn read_port<W: Width>(&mut self, port: u16) -> Result<W, Refusal> {
        let start = self.state.tape_place as usize;
        let end = start + usize::from(W::BYTES);
        let bytes = self.tape.get(start..end).ok_or(Refusal::TapeTooShort)?;
        let number = bytes
            .iter()
            .rev()
            .fold(0, |high, &low| high << 8 | u32::from(low));
        self.record::<W>(port, false, number)?;
        self.state.tape_place = end as u32;
        Ok(W::low_bits(number))
    }

    pub(crate) fn write_port<W: Width>(&mut self, port: u16, value: W) -> Outcome {
        self.record::<W>(port, true, value.number())
    }

    fn record<W: Width>(&mut self, port: u16, output: bool, value: u32) -> Outcome {
        let kind = u32::from(W::BYTES == 2) * 2 + u32::from(output);
        let record = Record {
            gap: self.state.count.saturating_add(1),
            key: u32::from(port) * 4 + kind,
            value,
        };
        let length = record.write(&mut self.log[self.state.log_place as usize..])?;
        self.state.log_place += length as u32;
        self.now.recorded = true;
        self.now.tally.bus_cycles += W::bus_cycles(port);
        Ok(())
    }
}
