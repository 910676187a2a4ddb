//! The code of a book: routines with their headings, labels, and a sentence beside each line.
use crate::book::{Body, Matter, Row, Section};
use crate::flow::{is_untold, ways, Kind, RESET};
use crate::lead::set_by;
use crate::line::Line;
use crate::loops::{bars, Bar, Loops, LEVELS};
use crate::phrase::{words, Here, Piece};
use crate::sentence::sentence;
use std::collections::BTreeSet;

pub struct Code<'a, 'm> {
    matter: &'m Matter<'a>,
    lines: Vec<&'a Line>,
    loops: Loops,
    /// Where a routine begins.
    heads: BTreeSet<u32>,
}

/// How many lines before one are looked at for what registers were set to.
const LEAD: usize = 8;

/// "a, b and c"
pub fn listed(items: Vec<Vec<Piece>>) -> Vec<Piece> {
    let count = items.len();
    let mut pieces = Vec::new();
    for (i, item) in items.into_iter().enumerate() {
        if i > 0 {
            pieces.extend(words(if i + 1 == count { " and " } else { ", " }));
        }
        pieces.extend(item);
    }
    pieces
}

fn said(before: &str, items: Vec<Vec<Piece>>) -> Vec<Piece> {
    let mut pieces = words(before);
    pieces.extend(listed(items));
    pieces.extend(words("."));
    pieces
}

impl<'a, 'm> Code<'a, 'm> {
    pub fn of(matter: &'m Matter<'a>) -> Code<'a, 'm> {
        let lines = matter.lines();
        let entries: BTreeSet<u32> = matter.notes.entries().collect();
        let is_head = |i: usize| {
            let address = lines[i].address;
            address == RESET
                || entries.contains(&address)
                || matter.flow.is_called(address)
                || i.checked_sub(1)
                    .is_none_or(|before| lines[before].next() != address)
        };
        Code {
            loops: Loops::of(matter.listing, matter.flow),
            heads: (0..lines.len())
                .filter(|i| is_head(*i))
                .map(|i| lines[i].address)
                .collect(),
            lines,
            matter,
        }
    }

    fn before(&self, i: usize) -> Option<&'a Line> {
        i.checked_sub(1).map(|i| self.lines[i])
    }

    fn head_of(&self, address: u32) -> Option<u32> {
        self.heads.range(..=address).next_back().copied()
    }

    /// Speaks at an address: of it, or of what is done there.
    fn at<T>(&self, address: u32, before: &[&Line], speak: impl Fn(&Here) -> T) -> T {
        speak(&Here {
            address,
            notes: self.matter.notes,
            before: before
                .first()
                .map(|before| (before.address, &before.instruction)),
            set: &set_by(before),
            start: self.matter.listing.start,
            shown: &|to| self.matter.flow.reached.contains(&to),
            again: &|to| self.loops.hold(address, to),
        })
    }

    pub fn link(&self, address: u32) -> Vec<Piece> {
        self.at(address, &[], |here| here.link(address))
    }

    /// Lines that come to an address; of another routine with its name.
    fn comers(&self, address: u32, kind: Kind) -> Vec<Vec<Piece>> {
        let home = self.head_of(address);
        let named = |from: u32| {
            let head = self
                .head_of(from)
                .filter(|head| Some(*head) != home && *head != from)?;
            self.matter.notes.name_of(head)
        };
        let all = self.matter.flow.comers.get(&address).into_iter().flatten();
        all.filter(|(k, _)| *k == kind)
            .map(|(_, from)| {
                let mut pieces =
                    named(*from).map_or(Vec::new(), |name| words(format!("{name}, at ")));
                pieces.extend(self.link(*from));
                pieces
            })
            .collect()
    }

    fn label(&self, address: u32) -> Option<Vec<Piece>> {
        let from = self.comers(address, Kind::Branches);
        let note = self.matter.notes.place(address);
        if from.is_empty() && note.is_none() {
            return None;
        }
        let mut pieces = words(self.at(address, &[], |here| here.name(address)));
        if !from.is_empty() {
            pieces.extend(words(", reached from "));
            pieces.extend(listed(from));
        }
        if let Some(note) = note.filter(|note| !note.comment.is_empty()) {
            pieces.extend(words(format!(": {}", note.comment)));
        }
        Some(pieces)
    }

    fn remarks(&self, line: &Line) -> Vec<String> {
        let mut all: Vec<String> = Vec::new();
        all.extend(
            self.matter
                .notes
                .remarks(line.address)
                .into_iter()
                .map(str::to_string),
        );
        if !self.matter.listing.is_own(line.address) {
            all.push("The listing itself has no line that begins here.".to_string());
        }
        if is_untold(line) {
            all.push("The program is not followed there.".to_string());
        }
        if ways(line).contains(&(Kind::Falls, 0)) {
            all.push("The image ends behind this line.".to_string());
        }
        all
    }

    /// The lines through which alone the program comes to a line, the last one first.
    fn lead(&self, i: usize) -> Vec<&'a Line> {
        let mut lead = Vec::new();
        let mut address = self.lines[i].address;
        for before in self.lines[..i].iter().rev().take(LEAD) {
            let falls = ways(before).contains(&(Kind::Falls, address));
            if !falls
                || self.matter.flow.comers.contains_key(&address)
                || self.heads.contains(&address)
            {
                break;
            }
            lead.push(*before);
            address = before.address;
        }
        lead
    }

    fn row(&self, i: usize, bars: [Bar; LEVELS]) -> Result<Row<'a>, String> {
        let line = self.lines[i];
        let sentence = self
            .at(line.address, &self.lead(i), |here| {
                sentence(&line.instruction, here)
            })
            .ok_or_else(|| format!("there is no sentence for the line '{}'", line.text))?;
        Ok(Row {
            line,
            own: self.matter.listing.is_own(line.address),
            label: if self.heads.contains(&line.address) {
                None
            } else {
                self.label(line.address)
            },
            bars,
            sentence,
            never_ran: self
                .matter
                .seen
                .is_some_and(|seen| !seen.contains_key(&line.address)),
            remarks: self.remarks(line),
        })
    }

    /// Who comes to a routine, and whom it calls.
    fn facts(&self, first: usize, rows: &[Row]) -> Vec<Vec<Piece>> {
        let head = self.lines[first].address;
        let mut facts = Vec::new();
        if head == RESET {
            facts.push(words("The processor starts here."));
        }
        if self
            .before(first)
            .is_some_and(|b| ways(b).contains(&(Kind::Falls, head)))
        {
            facts.push(words("The lines above go on here."));
        }
        for (kind, text) in [
            (Kind::Calls, "Called from "),
            (Kind::Branches, "Reached from "),
        ] {
            let from = self.comers(head, kind);
            if !from.is_empty() {
                facts.push(said(text, from));
            }
        }
        if facts.is_empty() {
            facts.push(words("The notes name it as an entry."));
        }
        let called: BTreeSet<u32> = rows
            .iter()
            .flat_map(|row| ways(row.line))
            .filter(|(kind, _)| *kind == Kind::Calls)
            .map(|(_, to)| to)
            .collect();
        let untold = rows
            .iter()
            .any(|row| row.line.instruction.name == "CALL" && is_untold(row.line));
        if !called.is_empty() {
            facts.push(said(
                "Calls ",
                called.into_iter().map(|to| self.link(to)).collect(),
            ));
        } else if !untold {
            facts.push(words("Calls no other."));
        }
        if untold {
            facts.push(words("Calls what only the running machine knows."));
        }
        facts
    }

    pub fn sections(&self) -> Result<Vec<Section<'a>>, String> {
        let mut count = 0;
        let numbers: Vec<usize> = self
            .lines
            .iter()
            .map(|line| {
                count += usize::from(self.heads.contains(&line.address));
                count
            })
            .collect();
        let mut sections: Vec<(usize, Vec<Row>)> = Vec::new();
        for (i, bars) in bars(&self.loops, &numbers).into_iter().enumerate() {
            let row = self.row(i, bars)?;
            match sections.last_mut() {
                Some((_, rows)) if !self.heads.contains(&row.line.address) => rows.push(row),
                _ => sections.push((i, vec![row])),
            }
        }
        let section = |(first, rows): (usize, Vec<Row<'a>>)| {
            let address = self.lines[first].address;
            let (title, comment) = self
                .matter
                .named(address, if address == RESET { "Start" } else { "Routine" });
            Section {
                address,
                title,
                comment,
                facts: self.facts(first, &rows),
                body: Body::Code(rows),
            }
        };
        Ok(sections.into_iter().map(section).collect())
    }
}
