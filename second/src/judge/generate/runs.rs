//! Streams of runs alone, as run and as the quicker run: programs that rewrite themselves, and whatever else a stream has.

use super::draft::Draft;
use super::random::Random;
use super::{any_case, programs, rewriting};
use crate::judge::case::{Call, Case};

/// The run of a number: the same for both ways to run, but for the call.
pub fn case(seed: u64, number: u64, way: Call) -> Case {
    let mut draft = Draft::new(Random::for_case(seed, number));
    match draft.random.below(20) {
        0..=8 => rewriting::loop_over_itself(&mut draft),
        9..=12 => rewriting::pointers_on_itself(&mut draft),
        13 => rewriting::pushes_over_itself(&mut draft),
        14..=16 => programs::run(&mut draft),
        _ => any_case(&mut draft, seed, number),
    }
    draft.case.budget = some_budget(&mut draft.random);
    draft.case.call = way;
    draft.case
}

pub fn some_budget(random: &mut Random) -> u16 {
    match random.below(20) {
        0 => random.pick(&[0, 1, 2]),
        1 => random.word(),
        2..=7 => random.below(3000) as u16,
        8..=11 => random.below(12) as u16,
        _ => random.below(300) as u16,
    }
}

#[cfg(test)]
mod tests {
    use super::*;
    use crate::judge::names::MOST_BYTES;
    use crate::machine::Machine;
    use crate::state::PS;
    use std::collections::HashMap;

    /// How many steps of a run do an instruction that has been done before with other bytes.
    fn changed_readings(case: &Case) -> usize {
        let mut lent = case.buffers();
        let mut machine = Machine::new(
            case.state.clone(),
            &mut lent.ram,
            &lent.rom,
            &case.tape,
            &mut lent.log,
        );
        let mut known: HashMap<(u16, u16), Vec<u8>> = HashMap::new();
        let mut changed = 0;
        for _ in 0..case.budget.min(500) {
            let place = (machine.state.segment[PS], machine.state.pc);
            let mut bytes: Vec<u8> = (0..MOST_BYTES as u16)
                .map(|index| {
                    machine
                        .memory
                        .read_byte(place.0, place.1.wrapping_add(index))
                })
                .collect();
            if machine.step().is_err() {
                break;
            }
            bytes.truncate(machine.now.fetched);
            let before = known.insert(place, bytes.clone());
            changed += usize::from(before.is_some_and(|before| before != bytes));
        }
        changed
    }

    #[test]
    fn many_runs_meet_an_instruction_again_that_has_changed() {
        let changes: Vec<usize> = (0..2_000)
            .map(|number| changed_readings(&case(3, number, Call::Run)))
            .collect();
        let with_a_change = changes.iter().filter(|&&changed| changed > 0).count();
        let with_many = changes.iter().filter(|&&changed| changed > 9).count();
        assert!(with_a_change > 250, "{with_a_change}");
        assert!(with_many > 60, "{with_many}");
    }
}
