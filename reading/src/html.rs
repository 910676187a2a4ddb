//! The reading as one page: no network, no script, black on white, to be read on a laptop and on paper.
use crate::book::{Body, Book, Fold, Named, Row, Section};
use crate::guide::{GUIDE, TITLE};
use crate::line::Line;
use crate::loops::Bar;
use crate::phrase::Piece;

/// How the page begins.
pub const HEAD: &str = "<!DOCTYPE html>\n<!-- A reading of a ROM -->\n";
const STYLE: &str = include_str!("page.css");
/// Around a line of the listing; `bare` takes what stands between.
const LINE: &str = "<code class=\"line\" data-more=\"";
const LINE_END: &str = "</code>";

fn escaped(text: &str) -> String {
    text.replace('&', "&amp;")
        .replace('<', "&lt;")
        .replace('>', "&gt;")
        .replace('"', "&quot;")
}

fn prose(pieces: &[Piece]) -> String {
    let part = |piece: &Piece| match piece {
        Piece::Words(text) => escaped(text),
        Piece::Link(address, text) => format!("<a href=\"#a{address:05X}\">{}</a>", escaped(text)),
    };
    pieces.iter().map(part).collect()
}

/// The lister's line, its parts in elements of their own.
fn parts(line: &Line) -> String {
    let (address, rest) = line.text.split_at(5);
    let digits = line.bytes.len() * 2;
    let (bytes, words) = rest[1..].split_at(digits);
    let gap = words.len() - words.trim_start().len();
    let (gap, words) = words.split_at(gap);
    format!("<b>{address}</b> <i>{bytes}</i>{gap}<span>{words}</span>")
}

fn line(line: &Line, more: usize) -> String {
    format!("{LINE}{more}\">{}{LINE_END}", parts(line))
}

/// The lines of the listing that a page holds, each with how many times more it stands for.
pub fn held(page: &str) -> Vec<(usize, String)> {
    let mut found = Vec::new();
    for part in page.split(LINE).skip(1) {
        let Some((more, rest)) = part.split_once("\">") else {
            continue;
        };
        let Some((words, _)) = rest.split_once(LINE_END) else {
            continue;
        };
        let Ok(more) = more.parse() else { continue };
        let mut text = String::new();
        let mut inside = true;
        for c in words.chars() {
            match c {
                '<' => inside = false,
                '>' => inside = true,
                c if inside => text.push(c),
                _ => {}
            }
        }
        found.push((more, text));
    }
    found
}

fn bars(row: &Row) -> String {
    let cell = |bar: &Bar| match bar {
        Bar::None => "<u></u>",
        Bar::Begins => "<u class=\"begins\"></u>",
        Bar::Inside => "<u class=\"inside\"></u>",
        Bar::Ends => "<u class=\"ends\"></u>",
        Bar::Whole => "<u class=\"whole\"></u>",
    };
    row.bars.iter().map(cell).collect()
}

/// The bars that pass a label which stands before a line.
fn passing(row: &Row) -> String {
    let cell = |bar: &Bar| match bar {
        Bar::Inside | Bar::Ends => "<u class=\"inside\"></u>",
        _ => "<u></u>",
    };
    row.bars.iter().map(cell).collect()
}

/// A line's row; a link to the first one leads to the heading above it.
fn row(out: &mut String, row: &Row, first: bool) {
    let id = match first {
        true => String::new(),
        false => format!(" id=\"a{:05X}\"", row.line.address),
    };
    if let Some(label) = &row.label {
        out.push_str(&format!(
            "<div class=\"label\"><span class=\"bars\">{}</span><p>{}</p></div>\n",
            passing(row),
            prose(label)
        ));
    }
    let remarks: String = row
        .remarks
        .iter()
        .map(|text| format!("<em>{}</em>", escaped(text)))
        .collect();
    let code = match row.own {
        true => line(row.line, 0),
        false => format!("<code>{}</code>", parts(row.line)),
    };
    out.push_str(&format!(
        "<div class=\"row\"{id}><span class=\"bars\">{}</span><p>{}{}{remarks}</p>{code}</div>\n",
        bars(row),
        if row.never_ran {
            "<strong>Never ran.</strong> "
        } else {
            ""
        },
        prose(&row.sentence),
    ));
}

fn section(out: &mut String, section: &Section) {
    let address = section.address;
    out.push_str(&format!(
        "<section>\n<h2 id=\"a{address:05X}\">{} <small>{address:05X}</small></h2>\n",
        escaped(&section.title)
    ));
    if !section.comment.is_empty() {
        out.push_str(&format!(
            "<p class=\"comment\">{}</p>\n",
            escaped(&section.comment)
        ));
    }
    let facts: Vec<String> = section.facts.iter().map(|fact| prose(fact)).collect();
    out.push_str(&format!("<p class=\"facts\">{}</p>\n", facts.join(" ")));
    match &section.body {
        Body::Code(rows) => rows
            .iter()
            .enumerate()
            .for_each(|(i, one)| row(out, one, i == 0)),
        Body::Data(rows) => {
            out.push_str("<pre>");
            for row in rows {
                out.push_str(&format!(
                    "{:05X}  {:47}  {}\n",
                    row.address,
                    row.hex(),
                    escaped(&row.text())
                ));
                if let Some(last) = row.same_to {
                    out.push_str(&format!("       and the same up to {last:05X}\n"));
                }
            }
            out.push_str("</pre>\n");
        }
    }
    out.push_str("<p class=\"up\"><a href=\"#contents\">To the contents</a></p>\n</section>\n");
}

fn table(out: &mut String, title: &str, rows: &[Named]) {
    if rows.is_empty() {
        return;
    }
    out.push_str(&format!("<h2>{title}</h2>\n<table>\n"));
    for row in rows {
        let comment = if row.comment.is_empty() {
            String::new()
        } else {
            format!(": {}", row.comment)
        };
        out.push_str(&format!(
            "<tr><th>{}</th><td>{}{}</td></tr>\n",
            escaped(&row.number),
            escaped(row.name),
            escaped(&comment)
        ));
    }
    out.push_str("</table>\n");
}

fn rest(out: &mut String, folds: &[Fold]) {
    if folds.is_empty() {
        return;
    }
    out.push_str("<details>\n<summary>The lister's lines for the bytes that are shown as data</summary>\n<pre>");
    for fold in folds {
        out.push_str(&line(fold.line, fold.more));
        out.push('\n');
        if fold.more > 0 {
            out.push_str(&format!("       {}\n", crate::text::again(fold.more)));
        }
    }
    out.push_str("</pre>\n</details>\n");
}

pub fn set(book: &Book) -> String {
    let title = escaped(&book.title);
    let mut out = format!(
        "{HEAD}<html lang=\"en\">\n<head>\n<meta charset=\"utf-8\">\n<meta name=\"viewport\" content=\"width=device-width\">\n\
         <title>{title}</title>\n<style>\n{STYLE}</style>\n</head>\n<body>\n<h1>{title}</h1>\n"
    );
    out.push_str(&format!(
        "<p class=\"facts\">{}{}</p>\n",
        crate::text::HEAD,
        escaped(&book.source)
    ));
    for text in book.about {
        out.push_str(&format!("<p>{}</p>\n", escaped(text)));
    }
    for fact in &book.facts {
        out.push_str(&format!("<p class=\"facts\">{}</p>\n", prose(fact)));
    }
    out.push_str("<h2 id=\"contents\">What is in it</h2>\n<ul class=\"contents\">\n");
    for one in &book.sections {
        let address = one.address;
        let item = format!(
            "<li><a href=\"#a{address:05X}\">{}</a> <small>{address:05X}</small>{}</li>\n",
            escaped(&one.title),
            match one.comment.as_str() {
                "" => String::new(),
                comment => format!("<br>{}", escaped(comment)),
            }
        );
        out.push_str(&item);
    }
    out.push_str(&format!("</ul>\n<h2>{TITLE}</h2>\n<dl>\n"));
    for (term, text) in GUIDE {
        out.push_str(&format!("<dt>{term}</dt><dd>{text}</dd>\n"));
    }
    out.push_str("</dl>\n");
    table(&mut out, "Ports", &book.ports);
    table(&mut out, "Cells of memory", &book.cells);
    for one in &book.sections {
        section(&mut out, one);
    }
    rest(&mut out, &book.rest);
    out.push_str("</body>\n</html>\n");
    out
}
