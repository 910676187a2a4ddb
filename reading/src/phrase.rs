//! Operands in words, with the names that the notes have for them at one instruction.
use crate::line::Instruction;
use crate::notes::Notes;
use crate::number::{both, in_hex};
use crate::operand::{Memory, Operand, Size};

/// Displacements from here on are read as negative: below it they are rather the place of a table.
const NEGATIVE: u16 = 0xFF00;

/// Where a sentence stands.
pub struct Here<'a> {
    pub address: u32,
    pub notes: &'a Notes,
    /// The instruction, with its address, from which alone this one is reached.
    pub before: Option<(u32, &'a Instruction)>,
    /// Registers that the lines right before set to a number.
    pub set: &'a [(String, u16)],
    /// The image's first address.
    pub start: u32,
    /// Whether a line of code stands at an address, so that one can be sent there.
    pub shown: &'a dyn Fn(u32) -> bool,
    /// Whether a branch to an address closes a loop.
    pub again: &'a dyn Fn(u32) -> bool,
}

/// A part of a sentence.
#[derive(Clone, Debug, PartialEq)]
pub enum Piece {
    Words(String),
    /// Leads to an address.
    Link(u32, String),
}

pub fn words(text: impl Into<String>) -> Vec<Piece> {
    vec![Piece::Words(text.into())]
}

/// The sentence as mere text.
pub fn plain(pieces: &[Piece]) -> String {
    let part = |piece: &Piece| match piece {
        Piece::Words(text) | Piece::Link(_, text) => text.clone(),
    };
    pieces.iter().map(part).collect()
}

impl<'a> Here<'a> {
    /// An instruction of which nothing around is known: as if every address had its line.
    pub fn alone(address: u32, notes: &'a Notes) -> Here<'a> {
        Here {
            address,
            notes,
            before: None,
            set: &[],
            start: 0,
            shown: &|_| true,
            again: &|_| false,
        }
    }

    /// A register, with what it holds here.
    pub fn register(&self, name: &str) -> String {
        match self.notes.operand(self.address, name) {
            Some(held) => format!("{name} ({held})"),
            None => name.to_string(),
        }
    }

    fn known_value(&self, register: &str) -> Option<u16> {
        let found = self.set.iter().find(|(name, _)| name == register);
        found.map(|(_, value)| *value)
    }

    /// A register that says how many.
    pub fn count(&self, register: &str) -> String {
        let noted = self.notes.operand(self.address, register);
        match (noted, self.known_value(register)) {
            (None, Some(value)) => format!("{register} ({value})"),
            _ => self.register(register),
        }
    }

    /// A port by its number, with its name.
    pub fn port(&self, port: u16) -> String {
        match self.notes.port(port) {
            Some(name) => format!("{name} (port {port:02X}h)"),
            None => format!("port {port:02X}h"),
        }
    }

    /// A port by the register that holds its number.
    pub fn port_in(&self, operand: &Operand) -> String {
        if let Operand::Register(register) = operand {
            let noted = self.notes.operand(self.address, register);
            if let (None, Some(port)) = (noted, self.known_value(register)) {
                return match self.notes.port(port) {
                    Some(name) => format!("{name} (port {port:02X}h, in {register})"),
                    None => format!("port {port:02X}h (in {register})"),
                };
            }
        }
        format!("the port whose number is in {}", self.value(operand))
    }

    /// A number with its name, or in the way that is given.
    pub fn number(&self, value: u16, typed: &str, otherwise: fn(u16) -> String) -> String {
        match self.notes.operand(self.address, typed) {
            Some(name) => format!("{} ({name})", in_hex(value)),
            None => otherwise(value),
        }
    }

    /// Segment and offset.
    pub fn spot(&self, memory: &Memory) -> String {
        let shift = memory.displacement;
        let mut sum = memory.registers.join(" + ");
        if memory.registers.is_empty() {
            sum = format!("{:04X}h", memory.displacement);
        } else if shift >= NEGATIVE {
            sum += &format!(" - {}", in_hex(shift.wrapping_neg()));
        } else if shift > 0 {
            sum += &format!(" + {}", in_hex(shift));
        }
        format!("{}:{sum}", memory.segment)
    }

    /// The cell to which a single register was set.
    fn set_to(&self, register: &str, memory: &Memory) -> Option<&str> {
        let alone = memory.registers.len() == 1;
        let base = self.known_value(register).filter(|_| alone)?;
        self.notes.cell(base.wrapping_add(memory.displacement))
    }

    /// What the notes call the cell, or what its registers point to.
    fn known(&self, memory: &Memory) -> Option<String> {
        let pointed = memory.registers.iter().filter_map(|r| {
            self.notes
                .operand(self.address, r)
                .or(self.set_to(r, memory))
        });
        let table = (memory.displacement != 0)
            .then(|| self.notes.cell(memory.displacement))
            .flatten();
        let names: Vec<&str> = pointed.chain(table).collect();
        (!names.is_empty()).then(|| names.join(", "))
    }

    /// Segment, offset, and what is known to be there.
    pub fn place(&self, memory: &Memory) -> String {
        match self.known(memory) {
            Some(name) => format!("{} ({name})", self.spot(memory)),
            None => self.spot(memory),
        }
    }

    pub fn memory(&self, memory: &Memory) -> String {
        let what = match memory.size {
            Size::Byte => "byte",
            Size::Word => "word",
            Size::Pair => "two words",
            Size::Unsaid => "place",
        };
        if memory.registers.is_empty() {
            if let Some(name) = self.notes.cell(memory.displacement) {
                return format!("{name} ({what} {})", self.spot(memory));
            }
        }
        format!("the {what} at {}", self.place(memory))
    }

    pub fn value_as(&self, operand: &Operand, number: fn(u16) -> String) -> String {
        match operand {
            Operand::Register(name) => self.register(name),
            Operand::Segment(name) => format!("the segment register {name}"),
            Operand::Memory(memory) => self.memory(memory),
            Operand::Number(value, typed) => self.number(*value, typed, number),
            Operand::Near(address) => self.name(*address),
            Operand::Far(ps, pc) => self.name(far(*ps, *pc)),
            Operand::Fixed(text) => text.clone(),
        }
    }

    pub fn value(&self, operand: &Operand) -> String {
        self.value_as(operand, both)
    }

    /// An address of code: its name, if it has one.
    pub fn name(&self, address: u32) -> String {
        match self.notes.name_of(address) {
            Some(name) => format!("{name} ({address:05X})"),
            None => format!("{address:05X}"),
        }
    }

    /// An address of code as a link, where a line stands there.
    pub fn link(&self, address: u32) -> Vec<Piece> {
        if (self.shown)(address) {
            vec![Piece::Link(address, self.name(address))]
        } else if address < self.start {
            words(format!("{} (outside of this ROM)", self.name(address)))
        } else {
            words(format!("{} (inside of another line)", self.name(address)))
        }
    }

    /// "go on at", or "go back to" where it is done again.
    pub fn go(&self, address: u32) -> Vec<Piece> {
        let back = address <= self.address && (self.again)(address);
        let mut pieces = words(if back { "go back to " } else { "go on at " });
        pieces.extend(self.link(address));
        pieces
    }
}

/// Segment x 16 + offset, in the ring of the address space.
pub fn far(ps: u16, pc: u16) -> u32 {
    (u32::from(ps) * 16 + u32::from(pc)) % crate::line::SPACE
}

#[cfg(test)]
mod tests {
    use super::*;

    #[test]
    fn far_addresses_wrap() {
        assert_eq!(far(0xFFF0, 0), 0xFFF00);
        assert_eq!(far(0xFFFF, 0x10), 0);
    }
}
