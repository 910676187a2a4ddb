//! The stack.
use crate::number::{both, many, signed};
use crate::operand::Operand::{self, Fixed, Number};
use crate::phrase::Here;

pub fn sentence(name: &str, operands: &[Operand], here: &Here) -> Option<String> {
    Some(match (name, operands) {
        ("PUSH", [Fixed(what)]) if what == "R" => {
            "put all eight registers (R) onto the stack: AW to IY".to_string()
        }
        ("POP", [Fixed(what)]) if what == "R" => {
            "take all eight registers (R) back from the stack, all but SP".to_string()
        }
        ("PUSH", [Fixed(what)]) => format!("put the flags ({what}) onto the stack"),
        ("POP", [Fixed(what)]) => format!("take the flags ({what}) back from the stack"),
        ("PUSH", [value]) => format!("put {} onto the stack", here.value_as(value, signed)),
        ("POP", [to]) => format!("take {} back from the stack", here.value(to)),
        ("PREPARE", [Number(size, _), Number(0, _)]) => {
            format!("open a frame on the stack, at level 0, with room for {}: BP is kept there and then points to it", bytes(*size))
        }
        ("PREPARE", [Number(size, _), Number(level, _)]) => {
            let level = both(*level);
            format!("open a frame on the stack, at level {level}, with room for {}: BP is kept there, and the pointers to the frames around it; then BP points to it", bytes(*size))
        }
        ("DISPOSE", []) => {
            "close the frame on the stack: SP and BP become what they were before it".to_string()
        }
        _ => return None,
    })
}

pub fn bytes(count: u16) -> String {
    many(u32::from(count), "byte")
}
