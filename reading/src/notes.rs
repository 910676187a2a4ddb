//! Notes: what a person knows about a ROM. A line each: a kind, where it holds, a name, and after ';' a comment.
use crate::operand::is_register;
use std::cell::Cell;
use std::collections::BTreeMap;

#[derive(Debug)]
pub struct Note {
    line: usize,
    pub name: String,
    pub comment: String,
    /// Whether the reading had a place for it.
    used: Cell<bool>,
}

impl Note {
    fn take(&self) -> &Note {
        self.used.set(true);
        self
    }
}

#[derive(Debug)]
pub struct Place {
    pub note: Note,
    /// Whether the program is followed from here whatever leads there.
    pub entry: bool,
}

#[derive(Debug, Default)]
pub struct Notes {
    pub title: Option<String>,
    pub about: Vec<String>,
    places: BTreeMap<u32, Place>,
    ports: BTreeMap<u16, Note>,
    cells: BTreeMap<u16, Note>,
    /// Of one instruction: by its address, and the register or number as the listing writes it.
    operands: BTreeMap<(u32, String), Note>,
    remarks: BTreeMap<u32, Note>,
}

const KINDS: &str = "title, about, entry, place, port, cell, at or say";

fn digits(text: &str, lengths: &[usize]) -> Option<u32> {
    let good = lengths.contains(&text.len()) && text.bytes().all(|c| c.is_ascii_hexdigit());
    good.then(|| u32::from_str_radix(text, 16).ok()).flatten()
}

fn address(text: &str) -> Result<u32, String> {
    digits(text, &[5]).ok_or_else(|| format!("'{text}' is no address of five hex digits"))
}

/// The first word, and what stands behind it.
fn word(text: &str) -> (&str, &str) {
    let (first, rest) = text.split_once(char::is_whitespace).unwrap_or((text, ""));
    (first, rest.trim())
}

fn named(line: usize, text: &str) -> Result<Note, String> {
    let (name, comment) = text.split_once(';').unwrap_or((text, ""));
    if name.trim().is_empty() {
        return Err("there is no name".to_string());
    }
    Ok(Note {
        line,
        name: name.trim().to_string(),
        comment: comment.trim().to_string(),
        used: Cell::new(false),
    })
}

fn put<K: Ord>(all: &mut BTreeMap<K, Note>, key: K, note: Note) -> Result<(), String> {
    match all.get(&key) {
        Some(first) => Err(format!("line {} has a note on the same", first.line)),
        None => {
            all.insert(key, note);
            Ok(())
        }
    }
}

impl Notes {
    fn add(&mut self, line: usize, text: &str) -> Result<(), String> {
        let (kind, rest) = word(text);
        let (first, behind) = word(rest);
        match kind {
            "title" | "about" if rest.is_empty() => Err(format!("'{kind}' stands without a text")),
            "title" if self.title.is_some() => Err("there is a title already".to_string()),
            "title" => {
                self.title = Some(rest.to_string());
                Ok(())
            }
            "about" => {
                self.about.push(rest.to_string());
                Ok(())
            }
            "entry" | "place" => {
                let at = address(first)?;
                let note = named(line, behind)?;
                if let Some(place) = self.places.get(&at) {
                    return Err(format!("line {} has a note on the same", place.note.line));
                }
                let entry = kind == "entry";
                self.places.insert(at, Place { note, entry });
                Ok(())
            }
            "port" => {
                let port = digits(first, &[2, 4])
                    .ok_or_else(|| format!("'{first}' is no port of two or four hex digits"))?;
                put(&mut self.ports, port as u16, named(line, behind)?)
            }
            "cell" => {
                let cell = digits(first, &[4])
                    .ok_or_else(|| format!("'{first}' is no cell's offset of four hex digits"))?;
                put(&mut self.cells, cell as u16, named(line, behind)?)
            }
            "at" => {
                let at = address(first)?;
                let (operand, name) = word(behind);
                let operand = operand.to_uppercase();
                if !is_register(&operand) && digits(&operand, &[2, 4]).is_none() {
                    return Err(format!(
                        "'{operand}' is no register and no number of two or four hex digits"
                    ));
                }
                put(&mut self.operands, (at, operand), named(line, name)?)
            }
            "say" => {
                let at = address(first)?;
                if behind.is_empty() {
                    return Err("there is nothing to say".to_string());
                }
                let note = Note {
                    line,
                    name: String::new(),
                    comment: behind.to_string(),
                    used: Cell::new(false),
                };
                put(&mut self.remarks, at, note)
            }
            _ => Err(format!("'{kind}' is no kind of note: {KINDS}")),
        }
    }

    /// Reads a file of notes; otherwise a line that says where it is wrong.
    pub fn parse(text: &str) -> Result<Notes, String> {
        let mut notes = Notes::default();
        for (i, line) in text.lines().enumerate() {
            let line = line.trim();
            if line.is_empty() || line.starts_with('#') {
                continue;
            }
            notes
                .add(i + 1, line)
                .map_err(|why| format!("line {}: {why}", i + 1))?;
        }
        Ok(notes)
    }

    pub fn entries(&self) -> impl Iterator<Item = u32> + '_ {
        self.places.iter().filter(|(_, p)| p.entry).map(|(a, _)| *a)
    }

    pub fn addresses(&self) -> impl Iterator<Item = u32> + '_ {
        self.places.keys().copied()
    }

    /// The name of an address, for those who speak of it from elsewhere.
    pub fn name_of(&self, address: u32) -> Option<&str> {
        self.places.get(&address).map(|p| p.note.name.as_str())
    }

    pub fn place(&self, address: u32) -> Option<&Note> {
        self.places.get(&address).map(|p| p.note.take())
    }

    pub fn port(&self, port: u16) -> Option<&str> {
        self.ports.get(&port).map(|n| n.take().name.as_str())
    }

    pub fn cell(&self, offset: u16) -> Option<&str> {
        self.cells.get(&offset).map(|n| n.take().name.as_str())
    }

    pub fn operand(&self, address: u32, text: &str) -> Option<&str> {
        self.operands
            .get(&(address, text.to_string()))
            .map(|n| n.take().name.as_str())
    }

    /// What is to be said beside an instruction: the remark on it, and the comments on its operands.
    pub fn remarks(&self, address: u32) -> Vec<&str> {
        let remark = self.remarks.get(&address).map(Note::take).into_iter();
        let of_operands = self
            .operands
            .range((address, String::new())..(address + 1, String::new()))
            .map(|(_, note)| note);
        remark
            .chain(of_operands)
            .map(|note| note.comment.as_str())
            .filter(|text| !text.is_empty())
            .collect()
    }

    pub fn ports(&self) -> impl Iterator<Item = (u16, &Note)> {
        self.ports.iter().map(|(n, note)| (*n, note))
    }

    pub fn cells(&self) -> impl Iterator<Item = (u16, &Note)> {
        self.cells.iter().map(|(n, note)| (*n, note))
    }

    /// What named nothing in the reading that was made, in the order of the file.
    pub fn idle(&self) -> Vec<String> {
        let mut all = Vec::new();
        let mut idle = |note: &Note, why: String| {
            if !note.used.get() {
                all.push((note.line, why));
            }
        };
        for (at, place) in &self.places {
            idle(&place.note, format!("nothing begins at {at:05X}"));
        }
        for (port, note) in &self.ports {
            idle(note, format!("no instruction names port {port:02X}"));
        }
        for (cell, note) in &self.cells {
            idle(note, format!("no instruction names the cell {cell:04X}"));
        }
        for ((at, operand), note) in &self.operands {
            idle(
                note,
                format!("no instruction at {at:05X} speaks of {operand}"),
            );
        }
        for (at, note) in &self.remarks {
            idle(note, format!("no instruction begins at {at:05X}"));
        }
        all.sort();
        all.into_iter()
            .map(|(line, why)| format!("line {line}: {why}"))
            .collect()
    }
}

#[cfg(test)]
mod tests {
    use super::*;

    #[test]
    fn every_kind() {
        let notes = Notes::parse(
            "# a ROM\n\ntitle Classes\nabout One.\nabout Two.\nentry FFF00 start ; begins\nplace FFF12 next\n\
             port 10 the tape\ncell 0400 the year\nat FFF46 ix the birth ; digits\nsay FFF46 here it is\n",
        )
        .unwrap();
        assert_eq!(notes.title.as_deref(), Some("Classes"));
        assert_eq!(notes.about, ["One.", "Two."]);
        assert_eq!(notes.entries().collect::<Vec<_>>(), [0xFFF00]);
        assert_eq!(notes.place(0xFFF00).unwrap().comment, "begins");
        assert_eq!(notes.name_of(0xFFF12), Some("next"));
        assert_eq!(notes.port(0x10), Some("the tape"));
        assert_eq!(notes.cell(0x400), Some("the year"));
        assert_eq!(notes.operand(0xFFF46, "IX"), Some("the birth"));
        assert_eq!(notes.remarks(0xFFF46), ["here it is", "digits"]);
        assert_eq!(notes.idle(), ["line 7: nothing begins at FFF12"]);
    }

    #[test]
    fn bad_lines() {
        let bad = |text: &str| Notes::parse(text).unwrap_err();
        assert_eq!(
            bad("\nname FFF00 x"),
            format!("line 2: 'name' is no kind of note: {KINDS}")
        );
        assert_eq!(
            bad("place FFF0 x"),
            "line 1: 'FFF0' is no address of five hex digits"
        );
        assert_eq!(bad("place FFF00 ; x"), "line 1: there is no name");
        assert_eq!(
            bad("port 100 x"),
            "line 1: '100' is no port of two or four hex digits"
        );
        assert_eq!(
            bad("cell 40 x"),
            "line 1: '40' is no cell's offset of four hex digits"
        );
        assert_eq!(
            bad("at FFF00 EAX x"),
            "line 1: 'EAX' is no register and no number of two or four hex digits"
        );
        assert_eq!(bad("say FFF00"), "line 1: there is nothing to say");
        assert_eq!(bad("title"), "line 1: 'title' stands without a text");
        assert_eq!(bad("title a\ntitle b"), "line 2: there is a title already");
        assert_eq!(
            bad("port 10 a\nport 0010 b"),
            "line 2: line 1 has a note on the same"
        );
        assert_eq!(
            bad("entry FFF00 a\nplace FFF00 b"),
            "line 2: line 1 has a note on the same"
        );
    }
}
