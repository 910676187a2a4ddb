//! A plain sentence for each instruction, a file for each group of them.
mod arithmetic;
mod bits;
mod block;
mod branch;
mod decimal;
mod multiply;
mod stack;
mod transfer;

use crate::line::Instruction;
use crate::operand::{Operand, Size};
use crate::phrase::{words, Here, Piece};

/// Whether an operand is a word; a number by its digits.
fn is_word(operand: &Operand) -> bool {
    match operand {
        Operand::Register(name) => !name.ends_with(['L', 'H']),
        Operand::Memory(memory) => memory.size == Size::Word,
        Operand::Number(_, typed) => typed.len() == 4,
        _ => true,
    }
}

/// AW or AL, as wide as the operand.
fn accumulator(operand: &Operand) -> &'static str {
    if is_word(operand) {
        "AW"
    } else {
        "AL"
    }
}

fn byte_or_word(operand: &Operand) -> &'static str {
    if is_word(operand) {
        "word"
    } else {
        "byte"
    }
}

fn finished(mut pieces: Vec<Piece>) -> Vec<Piece> {
    if let Some(Piece::Words(first)) = pieces.first_mut() {
        if let Some(letter) = first.get(..1) {
            *first = letter.to_uppercase() + &first[1..];
        }
    }
    match pieces.last_mut() {
        Some(Piece::Words(last)) => last.push('.'),
        _ => pieces.extend(words(".")),
    }
    pieces
}

/// What an instruction does here; nothing where the words are none that the lister has.
pub fn sentence(instruction: &Instruction, here: &Here) -> Option<Vec<Piece>> {
    let groups = [
        transfer::sentence,
        arithmetic::sentence,
        multiply::sentence,
        bits::sentence,
        decimal::sentence,
        stack::sentence,
        block::sentence,
    ];
    let name = instruction.name.as_str();
    let operands = instruction.operands.as_slice();
    if instruction.repeat.is_some() {
        return block::repeated(instruction, here).map(|text| finished(words(text)));
    }
    groups
        .iter()
        .find_map(|group| group(name, operands, here).map(words))
        .or_else(|| branch::sentence(name, operands, here))
        .map(finished)
}

#[cfg(test)]
mod tests;
