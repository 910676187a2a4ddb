//! Products, quotients, and conversions of AL and AW.
use super::is_word;
use crate::number::signed;
use crate::operand::Operand;
use crate::phrase::Here;

fn product(by: &Operand, how: &str, here: &Here) -> String {
    let by_words = here.value(by);
    if is_word(by) {
        format!("multiply AW by {by_words}, {how}: DW and AW become the upper and the lower word of the product")
    } else {
        format!("multiply AL by {by_words}, {how}: AW becomes the product")
    }
}

fn quotient(by: &Operand, how: &str, here: &Here) -> String {
    let by_words = here.value(by);
    let trap = "a quotient that has no room is trapped (vector 0)";
    if is_word(by) {
        format!("divide DW and AW, as one number, by {by_words}, {how}: AW becomes the quotient, DW the rest; {trap}")
    } else {
        format!("divide AW by {by_words}, {how}: AL becomes the quotient, AH the rest; {trap}")
    }
}

pub fn sentence(name: &str, operands: &[Operand], here: &Here) -> Option<String> {
    let with = "with signs";
    let without = "without signs";
    Some(match (name, operands) {
        ("MULU", [by]) => product(by, without, here),
        ("MUL", [by]) => product(by, with, here),
        ("MUL", [to, one, other]) => {
            let (to, one) = (here.value(to), here.value(one));
            let other = here.value_as(other, signed);
            format!("{to} becomes {one} times {other}, {with}; CY and V tell that it was too large for a word")
        }
        ("DIVU", [by]) => quotient(by, without, here),
        ("DIV", [by]) => quotient(by, with, here),
        ("ADJBA", []) => {
            "after an addition, make AL one decimal digit; a carry is added to AH and told by CY".to_string()
        }
        ("ADJ4A", []) => {
            "after an addition, make AL two decimal digits again; CY tells of a carry".to_string()
        }
        ("ADJBS", []) => {
            "after a subtraction, make AL one decimal digit; a borrow is taken from AH and told by CY".to_string()
        }
        ("ADJ4S", []) => {
            "after a subtraction, make AL two decimal digits again; CY tells of a borrow".to_string()
        }
        ("CVTBD", []) => "split AL into two decimal digits: AH becomes the tens, AL the ones".to_string(),
        ("CVTDB", []) => {
            "make one number of two digits: AL becomes ten times AH and AL added up, AH becomes 0".to_string()
        }
        ("CVTBW", []) => "widen AL with its sign: AH becomes 0, or FFh where AL is negative".to_string(),
        ("CVTWL", []) => "widen AW with its sign: DW becomes 0, or FFFFh where AW is negative".to_string(),
        _ => return None,
    })
}
