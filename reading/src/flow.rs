//! Code is told from data by following the program.
use crate::line::{Line, SPACE};
use crate::listing::{Lister, Listing};
use crate::operand::Operand;
use crate::phrase::far;
use std::collections::{BTreeMap, BTreeSet};

/// Where the processor starts.
pub const RESET: u32 = 0xFFFF0;

#[derive(Clone, Copy, Debug, PartialEq)]
pub enum Kind {
    Falls,
    Branches,
    Calls,
}

pub struct Flow {
    /// The addresses of all lines that are reached.
    pub reached: BTreeSet<u32>,
    /// Who comes to an address, by a branch or a call.
    pub comers: BTreeMap<u32, Vec<(Kind, u32)>>,
}

/// A branch or call whose target is not written down.
pub fn is_untold(line: &Line) -> bool {
    let by = line.instruction.operands.first();
    matches!(line.instruction.name.as_str(), "BR" | "CALL")
        && !matches!(by, Some(Operand::Near(_) | Operand::Far(..)))
}

/// Where the program can be after a line.
pub fn ways(line: &Line) -> Vec<(Kind, u32)> {
    let instruction = &line.instruction;
    let target = match instruction.operands.as_slice() {
        [Operand::Near(to)] => Some(*to),
        [Operand::Far(ps, pc)] => Some(far(*ps, *pc)),
        _ => None,
    };
    let on = (Kind::Falls, line.next());
    match (instruction.name.as_str(), target) {
        ("RET" | "RETI" | "DB", _) => Vec::new(),
        ("BR", target) => target.map(|to| (Kind::Branches, to)).into_iter().collect(),
        ("CALL", Some(to)) => vec![on, (Kind::Calls, to)],
        (_, Some(to)) => vec![on, (Kind::Branches, to)],
        (_, None) => vec![on],
    }
}

pub fn follow(listing: &mut Listing, entries: &[u32], lister: &mut Lister) -> Result<Flow, String> {
    let mut flow = Flow {
        reached: BTreeSet::new(),
        comers: BTreeMap::new(),
    };
    let mut open: Vec<u32> = entries
        .iter()
        .copied()
        .filter(|a| *a < SPACE)
        .rev()
        .collect();
    open.push(RESET);
    while let Some(address) = open.pop() {
        if flow.reached.contains(&address) {
            continue;
        }
        let Some(line) = listing.find(address, lister)? else {
            continue;
        };
        flow.reached.insert(address);
        for (kind, to) in ways(line) {
            if kind != Kind::Falls {
                flow.comers.entry(to).or_default().push((kind, address));
            }
            open.push(to);
        }
    }
    for comers in flow.comers.values_mut() {
        comers.sort_by_key(|(_, from)| *from);
    }
    Ok(flow)
}

impl Flow {
    pub fn is_called(&self, address: u32) -> bool {
        self.comers
            .get(&address)
            .is_some_and(|all| all.iter().any(|(kind, _)| *kind == Kind::Calls))
    }
}

#[cfg(test)]
mod tests {
    use super::*;
    use crate::line::line;

    #[test]
    fn where_the_program_goes() {
        let ways_of =
            |words: &str| ways(&line(&format!("FFF10 9000               {words}")).unwrap());
        let on = (Kind::Falls, 0xFFF12);
        assert_eq!(ways_of("NOP"), [on]);
        assert_eq!(ways_of("HALT"), [on]);
        assert_eq!(ways_of("BRK 21"), [on]);
        assert_eq!(ways_of("BRKEM 40"), [on]);
        assert_eq!(ways_of("BE FFF20"), [on, (Kind::Branches, 0xFFF20)]);
        assert_eq!(ways_of("BR FFF20"), [(Kind::Branches, 0xFFF20)]);
        assert_eq!(ways_of("BR FFF0:0030"), [(Kind::Branches, 0xFFF30)]);
        assert_eq!(ways_of("CALL FFF20"), [on, (Kind::Calls, 0xFFF20)]);
        assert_eq!(ways_of("CALL BW"), [on]);
        for words in [
            "BR BW",
            "BR DWORD DS0:[IX]",
            "RET",
            "RET 0004",
            "RETI",
            "DB FF",
        ] {
            assert_eq!(ways_of(words), [], "{words}");
        }
    }

    #[test]
    fn what_is_untold() {
        for (words, untold) in [
            ("BR BW", true),
            ("CALL WORD DS0:[0400]", true),
            ("BR FFF20", false),
            ("RET", false),
        ] {
            assert_eq!(
                is_untold(&line(&format!("FFF10 9000               {words}")).unwrap()),
                untold,
                "{words}"
            );
        }
    }
}
