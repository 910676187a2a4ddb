//! What the lines right before one say of it.
use crate::line::Line;
use crate::operand::Operand;

/// Whether two names share a register: AL and AW, but not AL and AH.
fn share(one: &str, other: &str) -> bool {
    let wide = one.ends_with('W') || other.ends_with('W');
    one == other
        || one[..1] == other[..1]
            && wide
            && [one, other]
                .iter()
                .all(|name| name.ends_with(['L', 'H', 'W']))
}

/// The registers that lines right before set to a number; the last line comes first.
pub fn set_by(lead: &[&Line]) -> Vec<(String, u16)> {
    let mut set: Vec<(String, u16)> = Vec::new();
    for line in lead {
        let (name, operands) = (
            line.instruction.name.as_str(),
            line.instruction.operands.as_slice(),
        );
        let ("MOV", [Operand::Register(register), Operand::Number(value, _)]) = (name, operands)
        else {
            break;
        };
        if set.iter().all(|(later, _)| !share(later, register)) {
            set.push((register.clone(), *value));
        }
    }
    set
}

#[cfg(test)]
mod tests {
    use super::*;
    use crate::line::line;

    #[test]
    fn what_registers_were_set_to() {
        let lead: Vec<Line> = [
            "MOV CL,02",
            "MOV AL,01",
            "MOV CW,0300",
            "MOV IX,0401",
            "INC IY",
            "MOV DW,0010",
        ]
        .iter()
        .map(|words| line(&format!("FFF46 9000               {words}")).unwrap())
        .collect();
        let set = set_by(&lead.iter().collect::<Vec<_>>());
        let wanted =
            [("CL", 2), ("AL", 1), ("IX", 0x401)].map(|(name, value)| (name.to_string(), value));
        assert_eq!(set, wanted);
        assert!(share("AL", "AW") && !share("AL", "AH") && !share("BP", "BW"));
    }
}
