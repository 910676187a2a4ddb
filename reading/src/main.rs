//! reading text|page NAME NOTES SEEN -- LISTER..: reads an image from standard input and writes its reading; an empty name of notes
//! or of what was seen stands for none. reading bare: takes the additions of a reading away again. reading each: the sentence of every
//! line of a listing, whether the program comes there or not.
//! A refusal is one line on standard error; it ends with 1 where a file cannot be used, 3 where the lister refuses the image.
mod bare;
mod book;
mod code;
mod data;
mod flow;
mod guide;
mod html;
mod lead;
mod line;
mod lister;
mod listing;
mod loops;
mod notes;
mod number;
mod operand;
mod phrase;
mod seen;
mod sentence;
mod text;

use book::Matter;
use listing::Listing;
use notes::Notes;
use phrase::{plain, Here};
use std::io::{Read, Write};

/// Notes and what was seen are no longer than this.
const LONGEST: u64 = 1 << 20;

/// A line to say, and the status to end with.
type Refused = (String, i32);

/// A file that a person wrote; without a name it is empty.
fn file(name: &str) -> Result<String, Refused> {
    if name.is_empty() {
        return Ok(String::new());
    }
    let refused = |why: &str| (format!("{name}: {why}"), 1);
    let mut bytes = Vec::new();
    std::fs::File::open(name)
        .and_then(|file| file.take(LONGEST + 1).read_to_end(&mut bytes))
        .map_err(|_| refused("cannot be read"))?;
    if bytes.len() as u64 > LONGEST {
        return Err(refused(&format!("too long: it may have {LONGEST} bytes")));
    }
    String::from_utf8(bytes).map_err(|_| refused("is no text"))
}

fn input() -> Result<Vec<u8>, Refused> {
    let mut bytes = Vec::new();
    let read = std::io::stdin().read_to_end(&mut bytes);
    read.map(|_| bytes)
        .map_err(|_| ("standard input cannot be read".to_string(), 1))
}

fn reading(
    kind: &str,
    name: &str,
    notes_file: &str,
    seen_file: &str,
    lister: &[String],
) -> Result<String, Refused> {
    let notes =
        Notes::parse(&file(notes_file)?).map_err(|why| (format!("{notes_file}: {why}"), 1))?;
    let seen = seen::parse(&file(seen_file)?).map_err(|why| (format!("{seen_file}: {why}"), 1))?;
    let of_image = |why: String| (format!("{name}: {why}"), 3);
    let mut print = |image: &[u8]| lister::print(lister, image);
    let mut listing = Listing::of(input()?, &mut print).map_err(of_image)?;
    let entries: Vec<u32> = notes.entries().collect();
    let flow = flow::follow(&mut listing, &entries, &mut print).map_err(of_image)?;
    let matter = Matter {
        source: name.rsplit('/').next().unwrap_or(name),
        listing: &listing,
        flow: &flow,
        notes: &notes,
        seen: (!seen_file.is_empty()).then_some(&seen),
    };
    let book = matter.book().map_err(of_image)?;
    for line in notes.idle() {
        eprintln!("v30: {notes_file}: {line}");
    }
    for address in seen
        .keys()
        .filter(|a| listing.place(**a).is_some() && !flow.reached.contains(a))
    {
        eprintln!("v30: {seen_file}: {address:05X} ran and is not reached by following: name it as an entry in the notes");
    }
    Ok(match kind {
        "page" => html::set(&book),
        _ => text::set(&book),
    })
}

fn bare_lines() -> Result<String, Refused> {
    String::from_utf8(input()?)
        .ok()
        .and_then(|text| bare::bare(&text))
        .ok_or_else(|| ("this is no reading".to_string(), 3))
}

fn sentences() -> Result<String, Refused> {
    let refused = |why: String| (why, 3);
    let listing =
        String::from_utf8(input()?).map_err(|_| refused("the listing is no text".to_string()))?;
    let lines = line::listing(&listing)
        .map_err(|n| refused(format!("line {n} of the listing is not understood")))?;
    let notes = Notes::default();
    let mut told = String::new();
    for line in lines {
        let here = Here::alone(line.address, &notes);
        let pieces = sentence::sentence(&line.instruction, &here)
            .ok_or_else(|| refused(format!("there is no sentence for the line '{}'", line.text)))?;
        told += &format!("{}\t{}\n", line.text, plain(&pieces));
    }
    Ok(told)
}

fn main() {
    let words: Vec<String> = std::env::args().skip(1).collect();
    let made = match words.iter().map(String::as_str).collect::<Vec<_>>()[..] {
        ["bare"] => bare_lines(),
        ["each"] => sentences(),
        [kind @ ("text" | "page"), name, notes, seen, "--", _, ..] => {
            reading(kind, name, notes, seen, &words[5..])
        }
        _ => Err((
            "reading text|page NAME NOTES SEEN -- LISTER.., reading bare, or reading each"
                .to_string(),
            2,
        )),
    };
    let ended = made.and_then(|text| {
        let written = std::io::stdout().write_all(text.as_bytes());
        written.map_err(|_| ("the reading cannot be written".to_string(), 1))
    });
    if let Err((line, status)) = ended {
        eprintln!("v30: {line}");
        std::process::exit(status);
    }
}
