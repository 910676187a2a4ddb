//! Counts and gaps about the two ceilings and the ends of the groups, and the bytes of gaps good and bad.

use super::random::Random;
use crate::gap_rule::GapRule;

const CEILINGS: [u32; 2] = [GapRule::Old.ceiling(), GapRule::New.ceiling()];

/// The largest numbers of one, two and four groups; the ceilings are those of three and five.
const LAST_OF_A_LENGTH: [u32; 3] = [(1 << 7) - 1, (1 << 14) - 1, (1 << 28) - 1];

/// One below it, the number itself or one above; nothing lies above the new ceiling.
fn about(random: &mut Random, number: u32) -> u32 {
    (number - 1).saturating_add(random.below(3))
}

pub fn about_a_ceiling(random: &mut Random) -> u32 {
    let ceiling = random.pick(&CEILINGS);
    about(random, ceiling)
}

/// Where the number of groups changes, at a ceiling, or anywhere; never 0.
pub fn some_gap(random: &mut Random) -> u32 {
    match random.below(4) {
        0 => about_a_ceiling(random),
        1 | 2 => {
            let end = random.pick(&LAST_OF_A_LENGTH);
            about(random, end)
        }
        _ => (random.double_word() >> random.below(32)).max(1),
    }
}

/// One to six groups, of which the last may be 0 or more than a gap has room for.
pub fn gap_bytes(random: &mut Random) -> Vec<u8> {
    let followed = random.below(6);
    let mut bytes: Vec<u8> = (0..followed).map(|_| random.some_byte() | 0x80).collect();
    bytes.push(random.pick(&[0, 0x01, 0x0E, 0x0F, 0x10, 0x7E, 0x7F]));
    bytes
}
