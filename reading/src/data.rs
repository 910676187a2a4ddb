//! What the program never reaches: bytes, sixteen in a row.
use crate::listing::Listing;

const ROW: u32 = 16;

#[derive(Debug, PartialEq)]
pub struct DataRow {
    pub address: u32,
    pub bytes: Vec<u8>,
    /// The last address of equal rows that are left out behind this one.
    pub same_to: Option<u32>,
}

impl DataRow {
    /// Its printable text; a full stop for anything else.
    pub fn text(&self) -> String {
        let letter = |b: &u8| {
            if (0x20..0x7F).contains(b) {
                *b as char
            } else {
                '.'
            }
        };
        self.bytes.iter().map(letter).collect()
    }

    pub fn hex(&self) -> String {
        let pairs: Vec<String> = self.bytes.iter().map(|b| format!("{b:02X}")).collect();
        pairs.join(" ")
    }
}

/// The rows of the bytes from one address up to another; each begins at a multiple of sixteen, but for the first.
pub fn rows(listing: &Listing, from: u32, to: u32) -> Vec<DataRow> {
    let mut rows: Vec<DataRow> = Vec::new();
    let mut address = from;
    while address < to {
        let end = (address / ROW * ROW + ROW).min(to);
        let bytes =
            &listing.bytes[(address - listing.start) as usize..(end - listing.start) as usize];
        match rows.last_mut() {
            Some(last) if last.bytes == bytes => last.same_to = Some(end - 1),
            _ => rows.push(DataRow {
                address,
                bytes: bytes.to_vec(),
                same_to: None,
            }),
        }
        address = end;
    }
    rows
}

/// Where no line of code stands: each range once, cut where the notes name an address.
pub fn ranges(
    listing: &Listing,
    code: &[(u32, u32)],
    named: impl Iterator<Item = u32>,
) -> Vec<(u32, u32)> {
    let mut covered = vec![false; listing.bytes.len()];
    for (from, to) in code {
        let first = (from - listing.start) as usize;
        let last = (first + (to - from) as usize).min(covered.len());
        covered[first..last].fill(true);
    }
    let mut cuts = vec![false; listing.bytes.len()];
    for address in named {
        if let Some(place) = listing.place(address) {
            cuts[place] = true;
        }
    }
    let mut found: Vec<(u32, u32)> = Vec::new();
    for (place, _) in covered.iter().enumerate().filter(|(_, c)| !**c) {
        let address = listing.start + place as u32;
        match found.last_mut() {
            Some((_, to)) if *to == address && !cuts[place] => *to += 1,
            _ => found.push((address, address + 1)),
        }
    }
    found
}
