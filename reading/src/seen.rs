//! Which instructions ran: lines of an address and a count.
use crate::operand::hex;
use std::collections::BTreeMap;

pub type Seen = BTreeMap<u32, u64>;

pub fn parse(text: &str) -> Result<Seen, String> {
    let mut seen = Seen::new();
    for (i, line) in text.lines().enumerate() {
        let found = line
            .split_once(' ')
            .and_then(|(address, count)| Some((hex(address, 5)?, count.parse::<u64>().ok()?)));
        match found {
            Some((address, count)) => *seen.entry(address).or_default() += count,
            None => return Err(format!("line {}: '{line}' is no address and count", i + 1)),
        }
    }
    Ok(seen)
}

#[cfg(test)]
mod tests {
    use super::*;

    #[test]
    fn good_and_bad() {
        assert_eq!(
            parse("FFF00 1\nFFFF0 12\n").unwrap().get(&0xFFFF0),
            Some(&12)
        );
        assert_eq!(parse("").unwrap().len(), 0);
        assert_eq!(
            parse("FFF00 1\nFFF0 1").unwrap_err(),
            "line 2: 'FFF0 1' is no address and count"
        );
        assert!(parse("FFF00").is_err());
        assert!(parse("FFF00 x").is_err());
    }
}
