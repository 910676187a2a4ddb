//! Numbers in words.

/// Numbers below ten are alike in hex and in decimal; others are given as both, and where they may be negative also as that.
pub fn both(value: u16) -> String {
    let negative = value as i16;
    if value < 10 {
        format!("{value}")
    } else if negative < 0 {
        format!("{value:X}h ({value} or {negative})")
    } else {
        format!("{value:02X}h ({value})")
    }
}

pub fn in_hex(value: u16) -> String {
    if value < 10 {
        format!("{value}")
    } else {
        format!("{value:02X}h")
    }
}

/// With its sign.
pub fn signed(value: u16) -> String {
    let number = value as i16;
    if number < 0 {
        format!("{value:X}h ({number})")
    } else {
        both(value)
    }
}

pub fn many(count: u32, what: &str) -> String {
    format!("{count} {what}{}", if count == 1 { "" } else { "s" })
}

/// "bits 0, 2 and 4 to 7": those that are one.
pub fn bits(value: u16) -> String {
    let mut runs: Vec<(u32, u32)> = Vec::new();
    for bit in (0..16).filter(|bit| value >> bit & 1 == 1) {
        match runs.last_mut() {
            Some((_, last)) if *last + 1 == bit => *last = bit,
            _ => runs.push((bit, bit)),
        }
    }
    let run = |&(from, to): &(u32, u32)| match to - from {
        0 => vec![format!("{from}")],
        1 => vec![format!("{from}"), format!("{to}")],
        _ => vec![format!("{from} to {to}")],
    };
    let texts: Vec<String> = runs.iter().flat_map(run).collect();
    match texts.split_last() {
        None => "no bit".to_string(),
        Some((only, [])) if value.count_ones() == 1 => format!("bit {only}"),
        Some((only, [])) => format!("bits {only}"),
        Some((last, rest)) => format!("bits {} and {last}", rest.join(", ")),
    }
}

#[cfg(test)]
mod tests {
    use super::*;

    #[test]
    fn numbers() {
        assert_eq!((both(9).as_str(), both(24).as_str()), ("9", "18h (24)"));
        assert_eq!(signed(0xFFFE), "FFFEh (-2)");
        assert_eq!(both(0xFFFE), "FFFEh (65534 or -2)");
        assert_eq!(
            (many(1, "bit"), many(4, "bit")),
            ("1 bit".into(), "4 bits".into())
        );
    }

    #[test]
    fn bits_in_words() {
        assert_eq!(bits(0xF0), "bits 4 to 7");
        assert_eq!(bits(0x05), "bits 0 and 2");
        assert_eq!(bits(0x08), "bit 3");
        assert_eq!(bits(0xE5), "bits 0, 2 and 5 to 7");
        assert_eq!(bits(0x83), "bits 0, 1 and 7");
        assert_eq!(bits(0), "no bit");
    }
}
