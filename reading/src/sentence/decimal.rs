//! Strings of decimal digits, and bit fields.
use crate::number::many;
use crate::operand::Operand::{self, Memory, Number};
use crate::phrase::Here;

/// A field's length is one more than its code, of which four bits count.
fn length(code: &Operand, here: &Here) -> String {
    match code {
        Number(n, _) => many(u32::from(n & 15) + 1, "bit"),
        other => format!("{} + 1 bits", here.value(other)),
    }
}

pub fn sentence(name: &str, operands: &[Operand], here: &Here) -> Option<String> {
    let count = || format!("as many as {} says", here.count("CL"));
    Some(match (name, operands) {
        ("ADD4S", [Memory(to), Memory(by)]) => {
            let (to, by) = (here.place(to), here.place(by));
            format!(
                "add the decimal digits at {by} to those at {to}, {}; CY tells of a carry",
                count()
            )
        }
        ("SUB4S", [Memory(to), Memory(by)]) => {
            let (to, by) = (here.place(to), here.place(by));
            format!(
                "take the decimal digits at {by} from those at {to}, {}; CY tells of a borrow",
                count()
            )
        }
        ("CMP4S", [Memory(to), Memory(by)]) => {
            let (to, by) = (here.place(to), here.place(by));
            format!("compare the decimal digits at {to} with those at {by}, {}; CY tells that the first are less, Z that they are alike", count())
        }
        ("ROL4", [to]) => {
            let to = here.value(to);
            format!("move the digits of {to} up by one: the lower digit of AL comes in below, and the upper one goes to AL")
        }
        ("ROR4", [to]) => {
            let to = here.value(to);
            format!("move the digits of {to} down by one: the lower digit of AL comes in above, and the lower one goes to AL")
        }
        ("INS", [offset, code, Memory(to)]) => {
            let (bits, offset, to) = (length(code, here), here.value(offset), here.place(to));
            format!("store the lowest {bits} of AW at {to}, from the bit on whose number is in {offset}; {offset} and IY go on behind them")
        }
        ("EXT", [offset, code, Memory(from)]) => {
            let (bits, offset, from) = (length(code, here), here.value(offset), here.place(from));
            format!("AW becomes the {bits} at {from}, from the bit on whose number is in {offset}; {offset} and IX go on behind them")
        }
        _ => return None,
    })
}
