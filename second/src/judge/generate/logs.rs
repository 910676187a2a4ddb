//! Readings of logs, sound and damaged.

use super::draft::Draft;
use super::gaps;
use crate::judge::case::{Call, Lent};
use crate::portlog::{Record, LONGEST_RECORD};

/// Records on both sides of what is well formed, under one rule or both.
const AT_THE_LIMITS: [&[u8]; 22] = [
    // gaps of four, five and six groups
    &[0x81, 0x80, 0x80, 0x01, 0x00, 0x00],
    &[0x80, 0x80, 0x80, 0x80, 0x01, 0x00, 0x00],
    &[0xFF, 0xFF, 0xFF, 0xFF, 0x8F, 0x01, 0x00, 0x00],
    // the new ceiling and one more
    &[0xFF, 0xFF, 0xFF, 0xFF, 0x0F, 0x00, 0x00],
    &[0x80, 0x80, 0x80, 0x80, 0x10, 0x00, 0x00],
    // four groups, as key and value
    &[0x05, 0x81, 0x80, 0x80, 0x01, 0x00],
    &[0x05, 0x02, 0x81, 0x80, 0x80, 0x01],
    // a group too many
    &[0x81, 0x00, 0x00, 0x00],
    &[0x81, 0x80, 0x00, 0x00, 0x00],
    &[0x81, 0x80, 0x80, 0x80, 0x00, 0x00, 0x00],
    &[0x05, 0x81, 0x00, 0x05],
    &[0x05, 0x80, 0x00, 0x05],
    &[0x05, 0x02, 0x85, 0x80, 0x00],
    &[0x05, 0x01, 0x85, 0x00],
    // gap 0
    &[0x00, 0x00, 0x00],
    // keys 262,143 and 262,144, and the largest of three groups
    &[0x05, 0xFF, 0xFF, 0x0F, 0x00],
    &[0x05, 0x80, 0x80, 0x10, 0x00],
    &[0x05, 0xFF, 0xFF, 0x7F, 0x00],
    // values 255, 256, 65,535 and 65,536
    &[0x05, 0x00, 0xFF, 0x01],
    &[0x05, 0x01, 0x80, 0x02],
    &[0x05, 0x02, 0xFF, 0xFF, 0x03],
    &[0x05, 0x03, 0x80, 0x80, 0x04],
];

pub fn reading(draft: &mut Draft) {
    draft.case.call = Call::LogReading;
    let (mut log, starts) = sound_log(draft);
    let mut place = draft.random.pick(&starts);
    if draft.random.one_in(2) {
        damage(draft, &mut log, place);
    }
    if draft.random.one_in(4) {
        place = draft.random.below(log.len() as u32 + 3);
    }
    draft.case.state.log_place = place;
    draft.case.log_length = log.len() as u16;
    for (index, &byte) in log.iter().enumerate() {
        draft.patch(Lent::Log, index as u32, byte);
    }
}

/// Up to five records; their starts and the log's end.
fn sound_log(draft: &mut Draft) -> (Vec<u8>, Vec<u32>) {
    let mut log = Vec::new();
    let mut starts = vec![0];
    for _ in 0..draft.random.below(6) {
        let record = some_record(draft);
        let mut bytes = [0; LONGEST_RECORD];
        let length = record.write(&mut bytes).unwrap_or(0);
        log.extend(&bytes[..length]);
        starts.push(log.len() as u32);
    }
    (log, starts)
}

fn some_record(draft: &mut Draft) -> Record {
    let gap = gaps::some_gap(&mut draft.random);
    let key = u32::from(draft.random.some_word()) << 2 | draft.random.below(4);
    let widest = if key & 2 == 0 { 0xFF } else { 0xFFFF };
    let value = u32::from(draft.random.some_word()) & widest;
    Record { gap, key, value }
}

/// Breaks the log somewhere from a record's start on.
fn damage(draft: &mut Draft, log: &mut Vec<u8>, start: u32) {
    let start = start as usize;
    match draft.random.below(8) {
        0 => {
            let kept = start + draft.random.below(8) as usize;
            log.truncate(kept);
        }
        1 => flip_a_byte(draft, log),
        2..=4 => {
            let mut record = gaps::gap_bytes(&mut draft.random);
            record.extend([0x81, 0x03, 0x41]);
            log.splice(start.., record);
        }
        _ => {
            let record = draft.random.pick(&AT_THE_LIMITS);
            log.splice(start.., record.iter().copied());
        }
    }
}

fn flip_a_byte(draft: &mut Draft, log: &mut [u8]) {
    if !log.is_empty() {
        let index = draft.random.below(log.len() as u32) as usize;
        log[index] = draft.random.byte();
    }
}
