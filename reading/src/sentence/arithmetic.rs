//! Sums, differences, comparisons and logic.
use super::is_word;
use crate::number::{bits, in_hex};
use crate::operand::Operand::{self, Number, Register};
use crate::phrase::Here;

/// "bits 4 to 7 of AL (F0h)"
fn bits_of(to: &Operand, value: u16, typed: &str, here: &Here) -> String {
    let mask = in_hex(value);
    let named = here.notes.operand(here.address, typed);
    let why = named.map_or(mask.clone(), |name| format!("{mask}, {name}"));
    let digit = match typed {
        "F0" => "the upper digit",
        "0F" => "the lower digit",
        _ => return format!("{} of {} ({why})", bits(value), here.value(to)),
    };
    format!("{digit} of {}, {} ({why})", here.value(to), bits(value))
}

fn kept(to: &Operand, value: u16, typed: &str, here: &Here) -> String {
    if value == 0 {
        format!("{} becomes 0: none of its bits is kept", here.value(to))
    } else {
        format!(
            "keep only {}; its other bits become 0",
            bits_of(to, value, typed, here)
        )
    }
}

fn looked_at(to: &Operand, by: &Operand, here: &Here) -> String {
    match by {
        Number(value, typed) => {
            format!(
                "look at {}; Z tells whether all of them are 0",
                bits_of(to, *value, typed, here)
            )
        }
        _ if to == by => {
            format!(
                "look at {}; Z tells whether it is 0, S whether it is negative",
                here.value(to)
            )
        }
        _ => {
            let (to, by) = (here.value(to), here.value(by));
            format!(
                "look at the bits of {to} that are set in {by}; Z tells whether all of them are 0"
            )
        }
    }
}

pub fn sentence(name: &str, operands: &[Operand], here: &Here) -> Option<String> {
    let value = |operand: &Operand| here.value(operand);
    Some(match (name, operands) {
        ("SUB" | "XOR", [Register(a), Register(b)]) if a == b => format!("{a} becomes 0"),
        ("ADD", [to, by]) => format!("add {} to {}", value(by), value(to)),
        ("ADDC", [to, Number(0, _)]) => {
            format!(
                "add 0 and CY to {}: it rises by 1 if there was a carry or borrow",
                value(to)
            )
        }
        ("ADDC", [to, by]) => format!("add {} and the carry CY to {}", value(by), value(to)),
        ("SUB", [to, by]) => format!(
            "take {} from {}; CY tells of a borrow",
            value(by),
            value(to)
        ),
        ("SUBC", [to, by]) => {
            format!(
                "take {} and the borrow CY from {}; CY tells of a new borrow",
                value(by),
                value(to)
            )
        }
        ("CMP", [to, by]) => {
            format!(
                "compare {} with {}; the flags keep the outcome",
                value(to),
                value(by)
            )
        }
        ("AND", [to, Number(mask, typed)]) => kept(to, *mask, typed, here),
        ("OR", [to, Number(mask, typed)]) => {
            format!(
                "set {}; its other bits stay",
                bits_of(to, *mask, typed, here)
            )
        }
        ("XOR", [to, Number(mask, typed)]) => {
            format!(
                "turn over {}; its other bits stay",
                bits_of(to, *mask, typed, here)
            )
        }
        ("AND" | "OR", [to, by]) if to == by => {
            format!(
                "{} stays as it is; Z tells whether it is 0, S whether it is negative",
                value(to)
            )
        }
        ("AND", [to, by]) => format!(
            "keep in {} only the bits that are set in {}",
            value(to),
            value(by)
        ),
        ("OR", [to, by]) => format!(
            "set in {} the bits that are set in {}",
            value(to),
            value(by)
        ),
        ("XOR", [to, by]) => {
            format!(
                "turn over in {} the bits that are set in {}",
                value(to),
                value(by)
            )
        }
        ("TEST", [to, by]) => looked_at(to, by, here),
        ("INC", [to]) => format!("add 1 to {}", value(to)),
        ("DEC", [to]) => format!("take 1 from {}", value(to)),
        ("NOT", [to]) => {
            let count = if is_word(to) { 16 } else { 8 };
            format!("turn over all {count} bits of {}", value(to))
        }
        ("NEG", [to]) => format!("turn the sign of {}: it becomes 0 less itself", value(to)),
        _ => return None,
    })
}
