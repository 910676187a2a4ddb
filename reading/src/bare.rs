//! Takes the additions away: what is left of a reading is the listing, line for line.
use crate::html;
use crate::line::{line, Line};
use crate::text;

/// A line as often as it stands for.
fn unfolded(first: &Line, more: usize) -> impl Iterator<Item = (u32, String)> + '_ {
    let size = first.bytes.len() as u32;
    (0..=more as u32).map(move |i| {
        let address = first.address + i * size;
        (address, format!("{address:05X}{}", &first.text[5..]))
    })
}

fn listed(mut lines: Vec<(u32, String)>) -> String {
    lines.sort();
    lines.into_iter().map(|(_, text)| text + "\n").collect()
}

/// The line of the listing that a line of the text holds.
fn held(words: &str) -> Option<Line> {
    let (margin, rest) = words.split_at_checked(text::MARGIN)?;
    if !margin.chars().all(|c| text::BARS.contains(c)) {
        return None;
    }
    line(rest.split(';').next()?.trim_end())
}

fn of_text(reading: &str) -> String {
    let mut found = Vec::new();
    let mut last = None;
    for words in reading.lines() {
        if let Some(held) = held(words) {
            found.push((held.address, held.text.clone()));
            last = Some(held);
        } else if let Some(first) = last.take() {
            let more = words
                .trim()
                .strip_prefix("and the same ")
                .and_then(|w| w.split(' ').next()?.parse().ok());
            if let Some(more) = more.filter(|n| words.trim() == text::again(*n)) {
                found.extend(unfolded(&first, more).skip(1));
            }
        }
    }
    listed(found)
}

fn of_page(page: &str) -> String {
    let mut found = Vec::new();
    for (more, words) in html::held(page) {
        if let Some(first) = line(&words) {
            found.extend(unfolded(&first, more));
        }
    }
    listed(found)
}

/// The listing of which a text or a page is the reading; nothing where it is neither.
pub fn bare(reading: &str) -> Option<String> {
    if reading.starts_with(text::HEAD) {
        Some(of_text(reading))
    } else if reading.starts_with(html::HEAD) {
        Some(of_page(reading))
    } else {
        None
    }
}

#[cfg(test)]
mod tests {
    use super::*;

    #[test]
    fn a_text_without_its_additions() {
        let reading = "A reading of x\n\n   | *  FFFFC EBFE               BR FFFFC ; Go back to FFFFC.\n\
                       \x20      ~FFFFD FE                 DB FE ; Not of the listing.\n\
                       \x20       FFFFE  90 90  ..\n        FFFFE 90                 NOP\n               and the same 1 times more\n";
        let wanted = "FFFFC EBFE               BR FFFFC\nFFFFE 90                 NOP\nFFFFF 90                 NOP\n";
        assert_eq!(bare(reading).as_deref(), Some(wanted));
        assert_eq!(bare(wanted), None, "a listing is no reading");
    }
}
