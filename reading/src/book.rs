//! The reading itself, before it is set as text or as a page.
use crate::code::{listed, Code};
use crate::data::{ranges, rows, DataRow};
use crate::flow::{is_untold, Flow, RESET};
use crate::line::Line;
use crate::listing::Listing;
use crate::loops::{Bar, LEVELS};
use crate::notes::{Note, Notes};
use crate::number::many;
use crate::phrase::{words, Piece};
use crate::seen::Seen;

pub struct Row<'a> {
    pub line: &'a Line,
    /// Whether it is a line of the listing itself.
    pub own: bool,
    /// Its name, and from where it is reached.
    pub label: Option<Vec<Piece>>,
    pub bars: [Bar; LEVELS],
    pub sentence: Vec<Piece>,
    pub never_ran: bool,
    pub remarks: Vec<String>,
}

pub enum Body<'a> {
    Code(Vec<Row<'a>>),
    Data(Vec<DataRow>),
}

pub struct Section<'a> {
    pub address: u32,
    pub title: String,
    pub comment: String,
    /// Who comes here, and whom it calls.
    pub facts: Vec<Vec<Piece>>,
    pub body: Body<'a>,
}

/// A line of the listing that stands for bytes of data, and how many times more the same follows.
pub struct Fold<'a> {
    pub line: &'a Line,
    pub more: usize,
}

/// A port or a cell of memory.
pub struct Named<'a> {
    pub number: String,
    pub name: &'a str,
    pub comment: &'a str,
}

pub struct Book<'a> {
    pub title: String,
    pub source: String,
    pub about: &'a [String],
    pub facts: Vec<Vec<Piece>>,
    pub ports: Vec<Named<'a>>,
    pub cells: Vec<Named<'a>>,
    pub sections: Vec<Section<'a>>,
    pub rest: Vec<Fold<'a>>,
}

/// What a book is made of.
pub struct Matter<'a> {
    pub source: &'a str,
    pub listing: &'a Listing,
    pub flow: &'a Flow,
    pub notes: &'a Notes,
    pub seen: Option<&'a Seen>,
}

impl<'a> Matter<'a> {
    /// The lines that are reached, in the order of their addresses.
    pub fn lines(&self) -> Vec<&'a Line> {
        self.flow
            .reached
            .iter()
            .filter_map(|a| self.listing.at(*a))
            .collect()
    }

    pub fn named(&self, address: u32, otherwise: &str) -> (String, String) {
        match self.notes.place(address) {
            Some(note) => (note.name.clone(), note.comment.clone()),
            None => (otherwise.to_string(), String::new()),
        }
    }

    fn data(&self) -> Vec<Section<'a>> {
        let code: Vec<(u32, u32)> = self
            .lines()
            .iter()
            .map(|line| (line.address, line.address + line.bytes.len() as u32))
            .collect();
        ranges(self.listing, &code, self.notes.addresses())
            .into_iter()
            .map(|(from, to)| {
                let (title, comment) = self.named(from, "Data");
                let bytes = many(to - from, "byte");
                let fact = format!(
                    "{bytes}, {from:05X} to {:05X}, that the program never reaches as code.",
                    to - 1
                );
                Section {
                    address: from,
                    title,
                    comment,
                    facts: vec![words(fact)],
                    body: Body::Data(rows(self.listing, from, to)),
                }
            })
            .collect()
    }

    fn rest(&self) -> Vec<Fold<'a>> {
        let mut folds: Vec<Fold> = Vec::new();
        for line in self
            .listing
            .own()
            .filter(|line| !self.flow.reached.contains(&line.address))
        {
            match folds.last_mut() {
                Some(last) if follows_same(last, line) => last.more += 1,
                _ => folds.push(Fold { line, more: 0 }),
            }
        }
        folds
    }

    fn summary(&self, code: &Code) -> Vec<Vec<Piece>> {
        let start = self.listing.start;
        let size = self.listing.bytes.len();
        if size == 0 {
            return vec![words("The image is empty.")];
        }
        let lines = self.lines();
        let mut facts = vec![words(format!(
            "The image has {}, {start:05X} to FFFFF. Followed from {RESET:05X}, where the processor starts, the program \
             leads to {}; all other bytes are shown as data.",
            many(size as u32, "byte"),
            many(lines.len() as u32, "instruction"),
        ))];
        let untold: Vec<Vec<Piece>> = lines
            .iter()
            .filter(|l| is_untold(l))
            .map(|l| code.link(l.address))
            .collect();
        if !untold.is_empty() {
            let mut fact =
                words("Where the program goes from these lines only the running machine knows: ");
            fact.extend(listed(untold));
            fact.extend(words("."));
            facts.push(fact);
        }
        if let Some(seen) = self.seen {
            let ran = lines
                .iter()
                .filter(|line| seen.contains_key(&line.address))
                .count();
            facts.push(words(format!(
                "In the run that was watched {ran} of them ran; the others are marked: Never ran."
            )));
        }
        facts
    }

    pub fn book(&self) -> Result<Book<'a>, String> {
        let code = Code::of(self);
        let mut sections = code.sections()?;
        sections.extend(self.data());
        sections.sort_by_key(|section| section.address);
        let title = self
            .notes
            .title
            .clone()
            .unwrap_or_else(|| format!("The program in {}", self.source));
        let named = |number: String, note: &'a Note| Named {
            number,
            name: &note.name,
            comment: &note.comment,
        };
        Ok(Book {
            title,
            source: self.source.to_string(),
            about: &self.notes.about,
            facts: self.summary(&code),
            ports: self
                .notes
                .ports()
                .map(|(n, note)| named(format!("port {n:02X}h"), note))
                .collect(),
            cells: self
                .notes
                .cells()
                .map(|(n, note)| named(format!("{n:04X}h"), note))
                .collect(),
            sections,
            rest: self.rest(),
        })
    }
}

/// Whether a line is the next one of a fold: at the next address, with the same bytes and words.
fn follows_same(fold: &Fold, line: &Line) -> bool {
    let size = fold.line.bytes.len() as u32;
    fold.line.text[5..] == line.text[5..]
        && line.address == fold.line.address + size * (fold.more as u32 + 1)
}
