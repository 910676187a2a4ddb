//! Shifts, rotations, and single bits.
use super::is_word;
use crate::number::many;
use crate::operand::Operand::{self, Fixed, Number, Register};
use crate::phrase::Here;

/// "by 3 bits"
fn distance(places: &Operand, here: &Here) -> Option<String> {
    Some(match places {
        Fixed(_) => "by 1 bit".to_string(),
        Number(count, typed) => match here.notes.operand(here.address, typed) {
            Some(name) => format!("by {} ({name})", many(u32::from(*count), "bit")),
            None => format!("by {}", many(u32::from(*count), "bit")),
        },
        Register(name) => format!("by as many bits as {} says", here.register(name)),
        _ => return None,
    })
}

/// "bit 3 of AL": a number counts by its low 3 or 4 bits.
fn bit(of: &Operand, number: &Operand, here: &Here) -> Option<String> {
    let of_words = here.value(of);
    let range = if is_word(of) { 15 } else { 7 };
    Some(match number {
        Number(n, typed) => match here.notes.operand(here.address, typed) {
            Some(name) => format!("bit {} of {of_words} ({name})", n & range),
            None => format!("bit {} of {of_words}", n & range),
        },
        Register(name) => format!(
            "the bit of {of_words} whose number is in {}",
            here.register(name)
        ),
        _ => return None,
    })
}

fn moved(name: &str, to: &str, by: &str) -> Option<String> {
    let round = "what leaves comes in at the other end, and the last bit is also in CY";
    Some(match name {
        "SHL" => {
            format!("shift {to} left {by}; zeros come in, and CY becomes the last bit that left")
        }
        "SHR" => {
            format!("shift {to} right {by}; zeros come in, and CY becomes the last bit that left")
        }
        "SHRA" => {
            format!("shift {to} right {by} and keep its sign; CY becomes the last bit that left")
        }
        "ROL" => format!("turn {to} round to the left {by}; {round}"),
        "ROR" => format!("turn {to} round to the right {by}; {round}"),
        "ROLC" => format!("turn {to} and CY, as one, round to the left {by}"),
        "RORC" => format!("turn {to} and CY, as one, round to the right {by}"),
        _ => return None,
    })
}

pub fn sentence(name: &str, operands: &[Operand], here: &Here) -> Option<String> {
    let upwards = "block instructions go upwards in memory";
    let downwards = "block instructions go downwards in memory";
    Some(match (name, operands) {
        ("CLR1", [Fixed(flag)]) if flag == "DIR" => {
            format!("from here on {upwards} (DIR becomes 0)")
        }
        ("SET1", [Fixed(flag)]) if flag == "DIR" => {
            format!("from here on {downwards} (DIR becomes 1)")
        }
        ("CLR1", [Fixed(flag)]) => format!("{flag} becomes 0"),
        ("SET1", [Fixed(flag)]) => format!("{flag} becomes 1"),
        ("NOT1", [Fixed(flag)]) => format!("turn {flag} over"),
        ("TEST1", [of, number]) => {
            format!("look at {}; Z becomes 1 if it is 0", bit(of, number, here)?)
        }
        ("CLR1", [of, number]) => format!("{} becomes 0", bit(of, number, here)?),
        ("SET1", [of, number]) => format!("{} becomes 1", bit(of, number, here)?),
        ("NOT1", [of, number]) => format!("turn over {}", bit(of, number, here)?),
        (_, [to, places]) => moved(name, &here.value(to), &distance(places, here)?)?,
        _ => return None,
    })
}
