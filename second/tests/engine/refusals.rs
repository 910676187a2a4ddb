//! The refusal numbers, their order, and runs that stop on them.

use crate::bench::{bench, Bench};
use second::judge::generate::encodings::{has_operands, is_in, PREFIXES};
use second::refusal::Refusal;
use second::state::*;

fn number(refusal: Option<Refusal>) -> u8 {
    refusal.map_or(0, Refusal::number)
}

fn with_memory(ram: usize, rom: usize) -> Bench {
    let mut machine = bench(&[]);
    machine.ram = vec![0; ram];
    machine.rom = vec![0; rom];
    machine
}

#[test]
fn memory_over_the_limit() {
    assert_eq!(with_memory(1 << 20, 1).refused(), 1);
    assert_eq!(with_memory(1, 1 << 20).refused(), 1);
    assert_eq!(with_memory((1 << 20) + 1, 0).refused(), 1);
    assert!(with_memory((1 << 20) - 5, 5).step().is_ok());
    assert_eq!(with_memory(0, 1 << 20).cycles(), 2);
}

#[test]
fn every_fixed_bit_is_checked() {
    for bit in 0..16 {
        let mut machine = bench(&[0x90]);
        machine.state.psw ^= 1 << bit;
        let fixed = [1, 3, 5, 12, 13, 14, 15].contains(&bit);
        if fixed {
            assert_eq!(machine.refused(), 2);
        } else {
            assert!(machine.step().is_ok());
        }
    }
}

#[test]
fn places_beyond_their_limits() {
    let edit: [fn(&mut State, u32); 2] = [
        |state, beyond| state.tape_place = 2 + beyond,
        |state, beyond| state.log_place = 64 + beyond,
    ];
    for spoil in edit {
        let mut machine = bench(&[0x90]).tape(&[1, 2]);
        spoil(&mut machine.state, 0);
        assert!(machine.clone().step().is_ok());
        spoil(&mut machine.state, 1);
        assert_eq!(machine.refused(), 2);
    }
}

#[test]
fn no_count_is_refused() {
    for count in [0, (1 << 21) - 1, 1 << 21, 4_294_967_295] {
        let mut machine = bench(&[0x90]);
        machine.state.count = count;
        assert!(machine.step().is_ok());
    }
}

#[test]
fn the_order_of_a_step() {
    let mut machine = bench(&[0xF1]);
    assert_eq!(machine.clone().refused(), 3);
    machine.state.halted = true;
    assert_eq!(machine.clone().refused(), 8);
    machine.state.psw = 0;
    assert_eq!(machine.clone().refused(), 2);
    machine.rom = vec![0; 1 << 20];
    assert_eq!(machine.refused(), 1);
}

#[test]
fn the_order_of_an_interrupt() {
    let mut machine = bench(&[]);
    let masked = |machine: &mut Bench| {
        let refusal = machine.interrupt(0, true).err();
        number(refusal)
    };
    assert_eq!(masked(&mut machine), 7);
    machine.state.psw = 0;
    assert_eq!(masked(&mut machine), 2);
    machine.rom = vec![0; 1 << 20];
    assert_eq!(masked(&mut machine), 1);
}

#[test]
fn runs_spend_their_budget_or_stop() {
    let mut machine = bench(&[0x40, 0x40, 0xF1]);
    let report = machine.clone().run(2);
    assert_eq!((number(report.refusal), report.steps), (0, 2));
    let report = machine.run(60_000);
    assert_eq!((number(report.refusal), report.steps), (3, 2));
    assert_eq!((machine.register(AW), machine.state.pc), (2, 2));
}

#[test]
fn a_run_sums_the_cycles_of_its_finished_steps() {
    // PUSH AW twice, then an input without a tape
    let mut machine = bench(&[0x50, 0x50, 0xE4, 0x00]).with(SP, 0x11);
    let report = machine.run(10);
    assert_eq!(
        (
            number(report.refusal),
            report.steps,
            report.tally.bus_cycles
        ),
        (5, 2, 4)
    );
}

#[test]
fn a_budget_of_zero_checks_arguments_alone() {
    let mut machine = bench(&[0xF1]);
    machine.state.halted = true;
    assert_eq!(number(machine.run(0).refusal), 0);
    assert_eq!(number(machine.run(1).refusal), 8);
    machine.state.psw = 0;
    assert_eq!(number(machine.run(0).refusal), 2);
    machine.rom = vec![0; 1 << 20];
    assert_eq!(number(machine.run(0).refusal), 1);
}

#[test]
fn a_run_stops_at_a_halt() {
    let report = bench(&[0x90, 0xF4, 0x90]).run(10);
    assert_eq!((number(report.refusal), report.steps), (8, 2));
}

/// A machine that lacks nothing an instruction may want.
fn well_supplied(code: &[u8]) -> Bench {
    let mut machine = bench(code).tape(&[1; 8]);
    machine.ram.truncate(0x20010);
    machine
}

#[test]
fn exactly_the_listed_first_bytes_are_unknown() {
    for first in 0..=255u8 {
        if PREFIXES.contains(&first) || has_operands(first) || first == 0x0F {
            continue;
        }
        let outcome = well_supplied(&[first, 0x0A]).step();
        assert_eq!(outcome.is_ok(), is_in(&[first]), "{first:02X}");
        if outcome.is_err() {
            assert_eq!(outcome, Err(Refusal::UnknownInstruction));
        }
    }
}

#[test]
fn exactly_the_listed_operand_bytes_are_unknown() {
    let firsts: Vec<u8> = (0..=255).filter(|&first| has_operands(first)).collect();
    assert_eq!(firsts.len(), 65);
    for first in firsts {
        for operands in 0..=255u8 {
            let outcome = well_supplied(&[first, operands]).step();
            assert_eq!(
                outcome.is_ok(),
                is_in(&[first, operands]),
                "{first:02X} {operands:02X}"
            );
        }
    }
}

#[test]
fn exactly_the_listed_second_bytes_are_in() {
    for second in 0..=255u8 {
        for operands in 0..=255u8 {
            let outcome = well_supplied(&[0x0F, second, operands]).step();
            let expected = is_in(&[0x0F, second, operands]);
            assert_eq!(outcome.is_ok(), expected, "0F {second:02X} {operands:02X}");
        }
    }
}

#[test]
fn decimal_conversions_want_the_base_ten() {
    for base in 0..=255u8 {
        for first in [0xD4, 0xD5] {
            assert_eq!(bench(&[first, base]).step().is_ok(), base == 10);
        }
    }
}
