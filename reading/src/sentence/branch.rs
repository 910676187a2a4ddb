//! Where the program goes on.
use crate::number::both;
use crate::operand::Operand::{self, Far, Fixed, Memory, Near, Number};
use crate::phrase::{far, words, Here, Piece};

/// What a comparison right before tells: the two that were compared.
fn compared(here: &Here) -> Option<(String, String)> {
    let (address, before) = here.before.filter(|(_, i)| i.name == "CMP")?;
    let there = Here { address, ..*here };
    match before.operands.as_slice() {
        [one, other] => Some((there.value(one), there.value(other))),
        _ => None,
    }
}

/// When a conditional branch is taken.
fn condition(name: &str, here: &Here) -> Option<String> {
    if let Some((one, other)) = compared(here) {
        let told = match name {
            "BC" => format!("{one} was less than {other}, so that there was a borrow (CY is 1)"),
            "BNC" => {
                format!("{one} was not less than {other}, so that there was no borrow (CY is 0)")
            }
            "BE" => format!("{one} was equal to {other}, so that Z is 1"),
            "BNE" => format!("{one} was not equal to {other}, so that Z is 0"),
            "BNH" => format!("{one} was not greater than {other}"),
            "BH" => format!("{one} was greater than {other}"),
            "BLT" => format!("{one} was less than {other}, with signs"),
            "BGE" => format!("{one} was not less than {other}, with signs"),
            "BLE" => format!("{one} was not greater than {other}, with signs"),
            "BGT" => format!("{one} was greater than {other}, with signs"),
            _ => String::new(),
        };
        if !told.is_empty() {
            return Some(told);
        }
    }
    let told = match name {
        "BV" => "the result had no room with its sign (V is 1)",
        "BNV" => "the result had room with its sign (V is 0)",
        "BC" => "there was a borrow or carry (CY is 1)",
        "BNC" => "there was no borrow or carry (CY is 0)",
        "BE" => "the result was 0, or both were equal (Z is 1)",
        "BNE" => "the result was not 0, or both were unequal (Z is 0)",
        "BNH" => "the first was not greater than the second (CY or Z is 1)",
        "BH" => "the first was greater than the second (CY and Z are 0)",
        "BN" => "the result was negative (S is 1)",
        "BP" => "the result was not negative (S is 0)",
        "BPE" => "the result had an even number of ones in its low byte (P is 1)",
        "BPO" => "the result had an odd number of ones in its low byte (P is 0)",
        "BLT" => "the first was less than the second, with signs (S and V differ)",
        "BGE" => "the first was not less than the second, with signs (S and V are alike)",
        "BLE" => {
            "the first was not greater than the second, with signs (Z is 1, or S and V differ)"
        }
        "BGT" => {
            "the first was greater than the second, with signs (Z is 0, and S and V are alike)"
        }
        "BCWZ" => "CW is 0",
        _ => return None,
    };
    Some(told.to_string())
}

/// What a loop's end counts and asks.
fn counting(name: &str) -> Option<&'static str> {
    Some(match name {
        "DBNZ" => "take 1 from CW; if it is not 0 then, ",
        "DBNZE" => "take 1 from CW; if it is not 0 then, and Z is 1 (both were equal), ",
        "DBNZNE" => "take 1 from CW; if it is not 0 then, and Z is 0 (both were unequal), ",
        _ => return None,
    })
}

fn chain(first: impl Into<String>, second: Vec<Piece>, last: &str) -> Vec<Piece> {
    let mut pieces = words(first);
    pieces.extend(second);
    pieces.extend(words(last));
    pieces
}

/// Where an address is taken from when it is not written down.
fn taken_from(operand: &Operand, here: &Here) -> String {
    match operand {
        Memory(_) => format!("whose address is kept in {}", here.value(operand)),
        _ => format!("whose address is in {}", here.value(operand)),
    }
}

fn vector(number: u16) -> String {
    format!("the interrupt routine of vector {}", both(number))
}

pub fn sentence(name: &str, operands: &[Operand], here: &Here) -> Option<Vec<Piece>> {
    let untold = "which the listing cannot tell";
    Some(match (name, operands) {
        ("CALL", [Near(to)]) => chain("do the routine ", here.link(*to), " and come back here"),
        ("CALL", [Far(ps, pc)]) => {
            let behind = format!(" in segment {ps:04X}h, offset {pc:04X}h, and come back here");
            chain("do the routine ", here.link(far(*ps, *pc)), &behind)
        }
        ("CALL", [by]) => words(format!(
            "do the routine {}, {untold}, and come back here",
            taken_from(by, here)
        )),
        ("BR", [Near(to)]) => here.go(*to),
        ("BR", [Far(ps, pc)]) => {
            let mut pieces = here.go(far(*ps, *pc));
            pieces.extend(words(format!(", in segment {ps:04X}h, offset {pc:04X}h")));
            pieces
        }
        ("BR", [by]) => words(format!(
            "go on at the place {}, {untold}",
            taken_from(by, here)
        )),
        ("RET", []) => words("go back to where this routine was called"),
        ("RET", [Number(size, _)]) => {
            let bytes = super::stack::bytes(*size);
            words(format!(
                "go back to where this routine was called, and drop {bytes} from the stack"
            ))
        }
        ("RETI", []) => {
            words("go back from an interrupt: the place and the flags come from the stack")
        }
        ("BRK", [Fixed(_)]) => words(format!("call {}", vector(3))),
        ("BRK", [Number(n, _)]) => words(format!("call {}", vector(*n))),
        ("BRKEM", [Number(n, _)]) => words(format!(
            "go into 8080 code by interrupt vector {}; it comes back here by its RETEM",
            both(*n)
        )),
        ("BRKV", []) => words(format!(
            "if V is 1 (a result had no room with its sign), call {}",
            vector(4)
        )),
        ("CHKIND", [register, Memory(memory)]) => {
            let (register, place) = (here.value(register), here.place(memory));
            words(format!(
                "if {register} lies outside of the two bounds at {place}, with signs, call {}",
                vector(5)
            ))
        }
        (_, [Near(to)]) => match counting(name) {
            Some(text) => chain(text, here.go(*to), ""),
            None => chain(format!("if {}, ", condition(name, here)?), here.go(*to), ""),
        },
        _ => return None,
    })
}
