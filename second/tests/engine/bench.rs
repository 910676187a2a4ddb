//! A machine with code at 2000:0000, ready to be stepped.

use second::machine::{Machine, RunReport, Tally};
use second::refusal::Refusal;
use second::state::{State, DS0, DS1, MODE, PS, SS};

/// Where the code lies; DS0 is 0000, SS 0800 and DS1 1000.
pub const CODE: usize = 0x20000;
pub const STACK: usize = 0x08000;
pub const TARGET: usize = 0x10000;

#[derive(Clone, Debug, PartialEq, Eq)]
pub struct Bench {
    pub state: State,
    pub ram: Vec<u8>,
    pub rom: Vec<u8>,
    pub tape: Vec<u8>,
    pub log: Vec<u8>,
}

pub fn bench(code: &[u8]) -> Bench {
    let mut state = State::after_reset();
    state.segment[PS] = 0x2000;
    state.segment[SS] = 0x0800;
    state.segment[DS1] = 0x1000;
    state.segment[DS0] = 0x0000;
    let bench = Bench {
        state,
        ram: vec![0; 0x30000],
        rom: Vec::new(),
        tape: Vec::new(),
        log: vec![0; 64],
    };
    bench.bytes(CODE, code)
}

impl Bench {
    pub fn with(mut self, code: usize, word: u16) -> Bench {
        self.state.general[code] = word;
        self
    }

    pub fn segment(mut self, code: usize, word: u16) -> Bench {
        self.state.segment[code] = word;
        self
    }

    pub fn flags(mut self, flags: u16) -> Bench {
        self.state.psw |= flags;
        self
    }

    /// Where BRKEM leads: the 8080 mode and the permission.
    pub fn in_8080_mode(mut self) -> Bench {
        self.state.psw &= !MODE;
        self.state.may_write_mode = true;
        self
    }

    pub fn bytes(mut self, address: usize, bytes: &[u8]) -> Bench {
        self.ram[address..address + bytes.len()].copy_from_slice(bytes);
        self
    }

    pub fn words(self, address: usize, words: &[u16]) -> Bench {
        let bytes: Vec<u8> = words.iter().flat_map(|word| word.to_le_bytes()).collect();
        self.bytes(address, &bytes)
    }

    pub fn tape(mut self, bytes: &[u8]) -> Bench {
        self.tape = bytes.to_vec();
        self
    }

    pub fn log_length(mut self, length: usize) -> Bench {
        self.log = vec![0; length];
        self
    }

    pub fn on<T>(&mut self, call: impl FnOnce(&mut Machine) -> T) -> T {
        let mut machine = Machine::new(
            self.state.clone(),
            &mut self.ram,
            &self.rom,
            &self.tape,
            &mut self.log,
        );
        let answer = call(&mut machine);
        self.state = machine.state;
        answer
    }

    pub fn tally(&mut self) -> Result<Tally, Refusal> {
        self.on(|machine| machine.step())
    }

    /// Bus cycles of a step that may be refused.
    pub fn step(&mut self) -> Result<u32, Refusal> {
        self.tally().map(|tally| tally.bus_cycles)
    }

    /// Bus cycles of an interrupt that may be refused.
    pub fn interrupt(&mut self, vector: u8, may_be_masked: bool) -> Result<u32, Refusal> {
        self.on(|machine| machine.interrupt(vector, may_be_masked))
            .map(|tally| tally.bus_cycles)
    }

    pub fn run(&mut self, budget: u16) -> RunReport {
        self.on(|machine| machine.run(budget))
    }

    /// Steps once and gives the machine after it.
    pub fn done(mut self) -> Bench {
        self.step().expect("the step is accepted");
        self
    }

    /// Bus cycles of one step.
    pub fn cycles(mut self) -> u32 {
        self.step().expect("the step is accepted")
    }

    /// Steps once, sees that nothing moved, and gives the number.
    pub fn refused(mut self) -> u8 {
        let before = self.clone();
        let refusal = self.step().expect_err("the step is refused");
        assert_eq!(self, before);
        refusal.number()
    }

    pub fn register(&self, code: usize) -> u16 {
        self.state.general[code]
    }

    pub fn word_at(&self, address: usize) -> u16 {
        u16::from_le_bytes([self.ram[address], self.ram[address + 1]])
    }

    pub fn has(&self, flags: u16) -> bool {
        self.state.psw & flags == flags
    }

    pub fn lacks(&self, flags: u16) -> bool {
        self.state.psw & flags == 0
    }
}
