//! The whole listing of an image, and lines that begin elsewhere where the program was seen to go there.
use crate::line::{listing, Line, SPACE};

/// Prints the lines of an image that ends where the address space does.
pub type Lister<'a> = dyn FnMut(&[u8]) -> Result<String, String> + 'a;

/// How many times an image is listed anew from inside of a line; more are hardly a program.
const ANEW: usize = 16;

pub struct Listing {
    pub start: u32,
    pub bytes: Vec<u8>,
    /// By place in the image: the lines of the listing itself.
    own: Vec<Option<Line>>,
    /// Lines that begin inside of those.
    other: Vec<Option<Line>>,
    anew: usize,
}

fn printed(bytes: &[u8], lister: &mut Lister) -> Result<Vec<Line>, String> {
    let text = lister(bytes)?;
    let lines = listing(&text).map_err(|n| format!("line {n} of the listing is not understood"))?;
    if lines.iter().flat_map(|line| &line.bytes).eq(bytes) {
        Ok(lines)
    } else {
        Err("the listing is not that of the image".to_string())
    }
}

impl Listing {
    pub fn of(bytes: Vec<u8>, lister: &mut Lister) -> Result<Listing, String> {
        let lines = printed(&bytes, lister)?;
        let size = bytes.len();
        let mut made = Listing {
            start: SPACE - size as u32,
            bytes,
            own: vec![None; size],
            other: vec![None; size],
            anew: 0,
        };
        for line in lines {
            let place = (line.address - made.start) as usize;
            made.own[place] = Some(line);
        }
        Ok(made)
    }

    pub fn place(&self, address: u32) -> Option<usize> {
        (self.start..SPACE)
            .contains(&address)
            .then(|| (address - self.start) as usize)
    }

    pub fn is_own(&self, address: u32) -> bool {
        self.place(address)
            .is_some_and(|place| self.own[place].is_some())
    }

    pub fn at(&self, address: u32) -> Option<&Line> {
        let place = self.place(address)?;
        self.own[place].as_ref().or(self.other[place].as_ref())
    }

    /// Every line of the listing itself.
    pub fn own(&self) -> impl Iterator<Item = &Line> {
        self.own.iter().flatten()
    }

    /// The line at an address. Where none begins the lister is asked once more, for the image from there on; its lines are taken up to
    /// where they meet known ones.
    pub fn find(&mut self, address: u32, lister: &mut Lister) -> Result<Option<&Line>, String> {
        let Some(place) = self.place(address) else {
            return Ok(None);
        };
        if self.at(address).is_none() && self.anew < ANEW {
            self.anew += 1;
            for line in printed(&self.bytes[place..], lister)? {
                if self.at(line.address).is_some() {
                    break;
                }
                let there = (line.address - self.start) as usize;
                self.other[there] = Some(line);
            }
        }
        Ok(self.at(address))
    }
}

#[cfg(test)]
mod tests {
    use super::*;

    const WHOLE: &str = "FFFFC B8EB00             MOV AW,00EB\nFFFFF 90                 NOP\n";

    #[test]
    fn lines_from_inside_of_a_line() {
        let asked = std::cell::RefCell::new(Vec::new());
        let mut lister = |image: &[u8]| {
            asked.borrow_mut().push(image.len());
            Ok(match image.len() {
                4 => WHOLE.to_string(),
                _ => {
                    "FFFFD EB00               BR FFFFF\nFFFFF 90                 NOP\n".to_string()
                }
            })
        };
        let mut listing = Listing::of(vec![0xB8, 0xEB, 0x00, 0x90], &mut lister).unwrap();
        let found = listing.find(0xFFFFD, &mut lister).unwrap().unwrap();
        assert_eq!(found.text, "FFFFD EB00               BR FFFFF");
        assert!(!listing.is_own(0xFFFFD) && listing.is_own(0xFFFFF));
        assert!(listing.find(0xFFFFD, &mut lister).unwrap().is_some());
        assert!(
            listing.find(0xFFFFB, &mut lister).unwrap().is_none(),
            "before the image"
        );
        assert_eq!(*asked.borrow(), [4, 3], "asked once for each");
    }

    #[test]
    fn a_lister_that_tells_of_another_image() {
        let mut lister = |_: &[u8]| Ok(WHOLE.to_string());
        let said = Listing::of(vec![0xB8, 0xEB, 0x01, 0x90], &mut lister).err();
        assert_eq!(
            said.as_deref(),
            Some("the listing is not that of the image")
        );
    }
}
