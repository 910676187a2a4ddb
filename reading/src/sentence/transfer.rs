//! MOV and its like, ports, and what concerns the processor as a whole.
use super::{accumulator, byte_or_word};
use crate::number::{both, in_hex};
use crate::operand::Operand::{self, Fixed, Memory, Number, Register, Segment};
use crate::phrase::Here;

/// Registers that commonly point into memory.
const POINTERS: [&str; 4] = ["BW", "BP", "IX", "IY"];

fn moved(to: &Operand, by: &Operand, here: &Here) -> String {
    if let (Register(register), Number(value, typed)) = (to, by) {
        let unnamed = here.notes.operand(here.address, typed).is_none();
        if unnamed && POINTERS.contains(&register.as_str()) {
            if let Some(cell) = here.notes.cell(*value) {
                return format!(
                    "{} becomes {}, the place of {cell}",
                    here.register(register),
                    in_hex(*value)
                );
            }
        }
    }
    format!("{} becomes {}", here.value(to), here.value(by))
}

/// A port: its number or DW, and its name.
fn port(operand: &Operand, here: &Here) -> String {
    match operand {
        Number(port, _) => here.port(*port),
        other => here.port_in(other),
    }
}

/// What a register holds, by the notes.
fn held<'a>(register: &Operand, here: &'a Here) -> Option<&'a str> {
    match register {
        Register(name) => here.notes.operand(here.address, name),
        _ => None,
    }
}

fn read(to: &Operand, from: &Operand, here: &Here) -> String {
    let what = held(to, here).map_or(format!("a {}", byte_or_word(to)), str::to_string);
    format!(
        "read {what} from {} into {}",
        port(from, here),
        accumulator(to)
    )
}

fn written(to: &Operand, from: &Operand, here: &Here) -> String {
    let register = accumulator(from);
    let what = held(from, here).map_or(register.to_string(), |name| {
        format!("{name} (in {register})")
    });
    format!("write {what} to {}", port(to, here))
}

pub fn sentence(name: &str, operands: &[Operand], here: &Here) -> Option<String> {
    let flags = "the flags S, Z, AC, P and CY";
    Some(match (name, operands) {
        ("MOV", [Register(ah), Fixed(_)]) => {
            format!("{ah} becomes the low byte of PSW: {flags}")
        }
        ("MOV", [Fixed(_), Register(ah)]) => {
            format!(
                "{flags}, which PSW holds, become what stands in {}",
                here.register(ah)
            )
        }
        ("MOV", [Segment(segment), Register(register), Memory(memory)]) => {
            let place = here.place(memory);
            format!("{register} becomes the word at {place}, and the segment register {segment} the word behind it")
        }
        ("MOV", [to, by]) => moved(to, by, here),
        ("LDEA", [to, Memory(memory)]) => {
            let place = here.place(memory);
            format!(
                "{} becomes the offset of {place}: the place itself, not what is stored there",
                here.value(to)
            )
        }
        ("TRANS", [Memory(memory)]) => {
            format!(
                "AL becomes the entry of that number (AL) in the table of bytes at {}",
                here.place(memory)
            )
        }
        ("XCH", [one, other]) => format!("exchange {} and {}", here.value(one), here.value(other)),
        ("IN", [to, from]) => read(to, from, here),
        ("OUT", [to, from]) => written(to, from, here),
        ("NOP", []) => "do nothing".to_string(),
        ("HALT", []) => "stop, until an interrupt comes".to_string(),
        ("DI", []) => "hold off interrupts that can be held off (IE becomes 0)".to_string(),
        ("EI", []) => "let interrupts come (IE becomes 1)".to_string(),
        ("DB", [Number(value, _)]) => {
            format!(
                "the byte {} is no instruction: the machine stops here and refuses it",
                both(*value)
            )
        }
        _ => return None,
    })
}
