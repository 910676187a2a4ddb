//! Block instructions: one element, or as many as CW says.
use super::{accumulator, byte_or_word};
use crate::line::Instruction;
use crate::operand::Operand::{self, Memory};
use crate::phrase::Here;

/// What is done to one element.
pub fn sentence(name: &str, operands: &[Operand], here: &Here) -> Option<String> {
    let held = operands.iter().find(|o| matches!(o, Memory(_)))?;
    let what = byte_or_word(held);
    let acc = here.register(accumulator(held));
    Some(match (name, operands) {
        ("MOVBK", [Memory(to), Memory(from)]) => {
            format!(
                "copy a {what} from {} to {}; IX and IY move on",
                here.place(from),
                here.place(to)
            )
        }
        ("CMPBK", [Memory(left), Memory(right)]) => {
            let (left, right) = (here.place(left), here.place(right));
            format!("compare the {what} at {left} with the one at {right}; IX and IY move on")
        }
        ("CMPM", [Memory(at)]) => format!(
            "compare {acc} with the {what} at {}; IY moves on",
            here.place(at)
        ),
        ("LDM", [Memory(from)]) => format!(
            "{acc} becomes the {what} at {}; IX moves on",
            here.place(from)
        ),
        ("STM", [Memory(to)]) => format!("store {acc} at {}; IY moves on", here.place(to)),
        ("INM", [Memory(to), port]) => {
            let (port, to) = (here.port_in(port), here.place(to));
            format!("read a {what} from {port} and store it at {to}; IY moves on")
        }
        ("OUTM", [port, Memory(from)]) => {
            let (port, from) = (here.port_in(port), here.place(from));
            format!("write the {what} at {from} to {port}; IX moves on")
        }
        _ => return None,
    })
}

/// What is done to element after element, apart from what ends it.
fn each(name: &str, operands: &[Operand], here: &Here) -> Option<String> {
    let held = operands.iter().find(|o| matches!(o, Memory(_)))?;
    let what = byte_or_word(held);
    let acc = here.register(accumulator(held));
    let many = format!("as many {what}s as {} says", here.count("CW"));
    Some(match (name, operands) {
        ("MOVBK", [Memory(to), Memory(from)]) => {
            format!(
                "copy {many}, from {} on, to {} and on",
                here.place(from),
                here.place(to)
            )
        }
        ("CMPBK", [Memory(left), Memory(right)]) => {
            let (left, right) = (here.place(left), here.place(right));
            format!("compare {many}, from {left} on, with those from {right} on")
        }
        ("CMPM", [Memory(at)]) => format!("compare {acc} with {many}, from {} on", here.place(at)),
        ("LDM", [Memory(from)]) => format!(
            "load {acc} with {many}, from {} on; the last one stays",
            here.place(from)
        ),
        ("STM", [Memory(to)]) => format!("fill {many}, from {} on, with {acc}", here.place(to)),
        ("INM", [Memory(to), port]) => {
            let (port, to) = (here.port_in(port), here.place(to));
            format!("read {many} from {port}, and store them from {to} on")
        }
        ("OUTM", [port, Memory(from)]) => {
            let (port, from) = (here.port_in(port), here.place(from));
            format!("write {many}, from {from} on, to {port}")
        }
        _ => return None,
    })
}

pub fn repeated(instruction: &Instruction, here: &Here) -> Option<String> {
    let name = instruction.name.as_str();
    let done = each(name, &instruction.operands, here)?;
    let compares = matches!(name, "CMPBK" | "CMPM");
    Some(match instruction.repeat.as_deref()? {
        "REP" if compares => format!("{done}, until two differ"),
        "REPNE" if compares => format!("{done}, until two are alike"),
        "REPC" if compares => format!("{done}, as long as the first is less (CY is 1)"),
        "REPNC" if compares => format!("{done}, as long as the first is not less (CY is 0)"),
        "REP" | "REPNE" | "REPC" | "REPNC" => done,
        _ => return None,
    })
}
