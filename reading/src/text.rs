//! The reading as text. A line of the listing stands at column 8, behind the margin, and ends before ';' or the line's end; `bare` takes
//! these lines out again, so nothing else may look like one.
use crate::book::{Body, Book, Fold, Named, Row, Section};
use crate::guide::{GUIDE, TITLE};
use crate::loops::Bar;
use crate::phrase::plain;

/// How the first line begins.
pub const HEAD: &str = "A reading of ";
/// Where the lister's lines begin.
pub const MARGIN: usize = 8;
/// What a margin beside a line of the listing is made of.
pub const BARS: &str = " |+*";
/// Beside a line that is not of the listing itself.
const OTHER: char = '~';
const WIDTH: usize = 120;
const SENTENCE: usize = 60;
/// The longest lines of the lister leave no room beside them.
const LONGEST: usize = 62;

/// Words in lines of at most `width`.
fn wrapped(text: &str, width: usize) -> Vec<String> {
    let mut lines: Vec<String> = Vec::new();
    for word in text.split_whitespace() {
        match lines.last_mut() {
            Some(last) if last.chars().count() + 1 + word.chars().count() <= width => {
                last.push(' ');
                last.push_str(word);
            }
            _ => lines.push(word.to_string()),
        }
    }
    lines
}

fn paragraph(out: &mut String, text: &str, indent: usize) {
    for line in wrapped(text, WIDTH - indent) {
        out.push_str(&" ".repeat(indent));
        out.push_str(&line);
        out.push('\n');
    }
}

fn heading(out: &mut String, text: &str, under: char) {
    let rule: String = text.chars().map(|_| under).collect();
    out.push_str(&format!("\n\n{text}\n{rule}\n\n"));
}

/// The margin of a line, or of what stands right before it or behind it.
fn margin(row: &Row, part: fn(Bar) -> char) -> String {
    let mut text = String::from(" ");
    for bar in row.bars {
        text.push(part(bar));
        text.push(' ');
    }
    text.push(' ');
    text
}

fn beside(bar: Bar) -> char {
    match bar {
        Bar::None => ' ',
        Bar::Inside => '|',
        Bar::Begins | Bar::Ends => '+',
        Bar::Whole => '*',
    }
}

fn above(bar: Bar) -> char {
    match bar {
        Bar::Inside | Bar::Ends => '|',
        _ => ' ',
    }
}

fn below(bar: Bar) -> char {
    match bar {
        Bar::Inside | Bar::Begins => '|',
        _ => ' ',
    }
}

fn row(out: &mut String, row: &Row, column: usize) {
    if let Some(label) = &row.label {
        for (i, line) in wrapped(&plain(label), WIDTH - MARGIN - 3)
            .iter()
            .enumerate()
        {
            let mark = if i == 0 { "-- " } else { "   " };
            out.push_str(&format!("{}{mark}{line}\n", margin(row, above)));
        }
    }
    let mut head = margin(row, beside);
    if !row.own {
        head.pop();
        head.push(OTHER);
    }
    let never = if row.never_ran { "Never ran. " } else { "" };
    let mut beside = wrapped(&format!("{never}{}", plain(&row.sentence)), SENTENCE);
    for remark in &row.remarks {
        let lines = wrapped(remark, SENTENCE - 2);
        beside.extend(
            lines
                .into_iter()
                .enumerate()
                .map(|(i, line)| format!("{}{line}", if i == 0 { "* " } else { "  " })),
        );
    }
    let mut left = row.line.text.clone();
    if left.len() > column {
        out.push_str(&format!("{head}{left}\n"));
        head = margin(row, below);
        left = String::new();
    }
    for (i, line) in beside.iter().enumerate() {
        let mark = if i == 0 { ';' } else { ' ' };
        out.push_str(&format!("{head}{left:column$} {mark} {line}\n"));
        head = margin(row, below);
        left = String::new();
    }
}

fn section(out: &mut String, section: &Section) {
    heading(
        out,
        &format!("{:05X}  {}", section.address, section.title),
        '-',
    );
    if !section.comment.is_empty() {
        paragraph(out, &section.comment, 0);
    }
    let facts: Vec<String> = section.facts.iter().map(|fact| plain(fact)).collect();
    paragraph(out, &facts.join(" "), 0);
    out.push('\n');
    match &section.body {
        Body::Code(rows) => {
            let widest = rows
                .iter()
                .map(|r| r.line.text.len())
                .filter(|n| *n <= LONGEST)
                .max();
            for one in rows {
                row(out, one, widest.unwrap_or(0));
            }
        }
        Body::Data(rows) => {
            for row in rows {
                out.push_str(&format!(
                    "        {:05X}  {:47}  {}\n",
                    row.address,
                    row.hex(),
                    row.text()
                ));
                if let Some(last) = row.same_to {
                    out.push_str(&format!("               and the same up to {last:05X}\n"));
                }
            }
        }
    }
}

fn table(out: &mut String, title: &str, rows: &[Named]) {
    if rows.is_empty() {
        return;
    }
    heading(out, title, '-');
    let widest = rows.iter().map(|row| row.number.len()).max().unwrap_or(0);
    for row in rows {
        let comment = if row.comment.is_empty() {
            String::new()
        } else {
            format!(": {}", row.comment)
        };
        for (i, line) in wrapped(&format!("{}{comment}", row.name), WIDTH - widest - 4)
            .iter()
            .enumerate()
        {
            let number = if i == 0 { row.number.as_str() } else { "" };
            out.push_str(&format!("  {number:widest$}  {line}\n"));
        }
    }
}

/// What stands behind a line whose like follow.
pub fn again(more: usize) -> String {
    format!("and the same {more} times more")
}

fn rest(out: &mut String, folds: &[Fold]) {
    if folds.is_empty() {
        return;
    }
    heading(
        out,
        "The lister's lines for the bytes that are shown as data",
        '=',
    );
    paragraph(out, "The lister does not follow the program: it names an instruction wherever bytes look like one. These lines make the listing whole again.", 0);
    out.push('\n');
    for fold in folds {
        out.push_str(&format!("        {}\n", fold.line.text));
        if fold.more > 0 {
            out.push_str(&format!("               {}\n", again(fold.more)));
        }
    }
}

pub fn set(book: &Book) -> String {
    let mut out = format!("{HEAD}{}\n", book.source);
    heading(&mut out, &book.title, '=');
    for text in book.about {
        paragraph(&mut out, text, 0);
        out.push('\n');
    }
    for fact in &book.facts {
        paragraph(&mut out, &plain(fact), 0);
    }
    heading(&mut out, TITLE, '-');
    for (term, text) in GUIDE {
        paragraph(&mut out, &format!("{term}: {text}"), 2);
    }
    heading(&mut out, "What is in it", '-');
    for one in &book.sections {
        out.push_str(&format!("  {:05X}  {}\n", one.address, one.title));
        paragraph(&mut out, &one.comment, 9);
    }
    table(&mut out, "Ports", &book.ports);
    table(&mut out, "Cells of memory", &book.cells);
    for one in &book.sections {
        section(&mut out, one);
    }
    rest(&mut out, &book.rest);
    out
}
