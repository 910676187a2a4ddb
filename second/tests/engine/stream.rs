//! Case streams: their bytes, their answers and the words of a mismatch.

use second::gap_rule::GapRule;
use second::judge::answer::{answer, answer_stream};
use second::judge::case::{Call, Case, Lent, Patch};
use second::judge::diff::{diff, Answers};
use second::judge::generate::encodings::{has_operands, is_in, walk, LENGTH_OF_WALK};
use second::judge::names::name;
use second::judge::result::sum;
use second::state::*;

fn step_of(code: &[u8]) -> Case {
    let mut state = State::after_reset();
    state.segment[PS] = 0;
    let patches = (0u32..).zip(code).map(|(index, &value)| Patch {
        lent: Lent::Ram,
        index,
        value,
    });
    Case {
        call: Call::Step,
        state,
        may_be_masked: false,
        vector: 0,
        budget: 0,
        ram_length: 16,
        rom_length: 0,
        log_length: 4,
        fill: 0x90,
        gap_rule: GapRule::Old,
        patches: patches.collect(),
        tape: vec![0xAB],
    }
}

pub fn bytes_of(case: &Case) -> Vec<u8> {
    let mut bytes = Vec::new();
    case.write(&mut bytes).expect("a vector takes all bytes");
    bytes
}

#[test]
fn a_case_is_laid_out_as_the_table_says() {
    let mut case = step_of(&[0x40]);
    case.state.general = [0x0101, 2, 3, 4, 5, 6, 7, 8];
    case.state.segment = [0x0C, 0x09, 0x0A, 0x0B];
    case.state.pc = 0x0D;
    case.state.tape_place = 1;
    case.state.log_place = 2;
    case.state.count = 0x12345;
    case.state.after_segment_load = true;
    case.state.may_write_mode = true;
    case.budget = 0x1234;
    case.gap_rule = GapRule::New;
    let bytes = bytes_of(&case);
    let mut expected = vec![0, 0, 0, 0, 0x34, 0x12];
    expected.extend([1, 1, 2, 0, 3, 0, 4, 0, 5, 0, 6, 0, 7, 0, 8, 0]);
    expected.extend([9, 0, 10, 0, 11, 0, 12, 0, 13, 0, 0x02, 0xF0]);
    expected.extend([1, 0, 0, 0, 2, 0, 0, 0, 0x45, 0x23, 0x01, 0]);
    expected.extend([16, 0, 0, 0, 0, 0, 0, 0, 1, 0, 4, 0, 1, 0, 0x90]);
    expected.extend([1, 1, 1]);
    expected.extend([0; 8]);
    expected.extend([0, 0, 0, 0, 0, 0x40, 0xAB]);
    assert_eq!(bytes, expected);
    assert_eq!(Case::read(&mut &bytes[..]).expect("a whole case"), case);
}

#[test]
fn an_answer_is_laid_out_as_the_table_says() {
    let bytes = answer(&step_of(&[0x50]));
    let mut expected = vec![0, 0, 1, 0, 0, 0, 1, 0, 0, 0];
    expected.extend([0, 0, 0, 0, 0, 0, 0, 0, 0xFE, 0xFF, 0, 0, 0, 0, 0, 0]);
    expected.extend([0, 0, 0, 0, 0, 0, 0, 0, 1, 0, 0x02, 0xF0]);
    expected.extend([0, 0, 0, 0, 0, 0, 0, 0, 1, 0, 0, 0]);
    let mut ram = [0x90; 16];
    ram[0] = 0x50;
    expected.extend(sum(&ram).to_le_bytes());
    expected.extend(sum(&[0x90; 4]).to_le_bytes());
    // the pushed word is dropped, and what follows is zero: marks that are not set, and requests that are not built
    expected.extend([2, 0, 0, 0]);
    expected.extend([0; 26]);
    assert_eq!((bytes.len(), bytes), (88, expected));
}

#[test]
fn an_answer_has_the_mark_of_a_segment_load() {
    // MOV DS0,AW, then a step that does not load
    let mut case = step_of(&[0x8E, 0xD8]);
    assert_eq!(answer(&case)[70], 1);
    (case.call, case.budget) = (Call::Run, 2);
    assert_eq!(answer(&case)[70], 0);
    case.state.after_segment_load = true;
    case.call = Call::Interrupt;
    assert_eq!((answer(&case)[0], answer(&case)[70]), (13, 1));
    case.call = Call::Reset;
    assert_eq!(answer(&case)[70], 0);
}

#[test]
fn sums_are_fnv_1a() {
    assert_eq!(sum(b""), 0x811C_9DC5);
    assert_eq!(sum(b"a"), 0xE40C_292C);
    assert_eq!(sum(b"foobar"), 0xBF9C_F968);
}

#[test]
fn log_readings_answer_with_seventeen_bytes() {
    let mut case = step_of(&[]);
    case.call = Call::LogReading;
    case.fill = 0x01;
    case.state.log_place = 1;
    assert_eq!(
        answer(&case),
        [0, 1, 0, 0, 0, 1, 0, 0, 0, 1, 0, 0, 0, 4, 0, 0, 0]
    );
    case.state.log_place = 2;
    assert_eq!(
        answer(&case),
        [9, 0, 0, 0, 0, 0, 0, 0, 0, 0, 0, 0, 0, 2, 0, 0, 0]
    );
    case.state.log_place = 4;
    assert_eq!(
        answer(&case),
        [1, 0, 0, 0, 0, 0, 0, 0, 0, 0, 0, 0, 0, 0, 0, 0, 0]
    );
    case.state.log_place = 5;
    assert_eq!(
        answer(&case),
        [2, 0, 0, 0, 0, 0, 0, 0, 0, 0, 0, 0, 0, 0, 0, 0, 0]
    );
}

#[test]
fn log_readings_obey_the_gap_rule() {
    // 82 82 82 82 02, then key 2 and value 2: a gap of five groups
    let mut case = step_of(&[]);
    case.call = Call::LogReading;
    (case.fill, case.log_length) = (0x82, 7);
    for index in 4..7 {
        let (lent, value) = (Lent::Log, 0x02);
        case.patches.push(Patch { lent, index, value });
    }
    assert_eq!(answer(&case)[0], 9);
    case.gap_rule = GapRule::New;
    assert_eq!(
        answer(&case),
        [0, 0x02, 0x81, 0x40, 0x20, 2, 0, 0, 0, 2, 0, 0, 0, 7, 0, 0, 0]
    );
    // the other calls do not look at it
    for call in [Call::Step, Call::Run, Call::Interrupt, Call::Reset] {
        case.call = call;
        case.gap_rule = GapRule::New;
        let new = answer(&case);
        case.gap_rule = GapRule::Old;
        assert_eq!(answer(&case), new);
    }
}

fn answers_of(stream: &[u8]) -> Vec<u8> {
    let mut results = Vec::new();
    answer_stream(&mut &stream[..], &mut results).expect("memory does not fail");
    results
}

#[test]
fn a_cut_case_ends_the_stream_without_a_result() {
    let whole = bytes_of(&step_of(&[0x40]));
    let twice = whole.repeat(2);
    for cut in 1..whole.len() {
        assert_eq!(answers_of(&twice[..twice.len() - cut]).len(), 88);
    }
    assert_eq!(answers_of(&twice).len(), 176);
}

/// How many results come when the second of two cases has these bytes at an offset, and much follows.
fn answered_with(offset: usize, bytes: &[u8]) -> usize {
    let good = bytes_of(&step_of(&[0x40]));
    let mut stream = good.repeat(2);
    let start = good.len() + offset;
    stream[start..start + bytes.len()].copy_from_slice(bytes);
    stream.extend(vec![0; 100_000]);
    answers_of(&stream).len() / 88
}

#[test]
fn what_does_not_fit_ends_the_stream() {
    // RAM, ROM, tape, log and patches one over their limits; calls that are not known
    for (offset, bytes) in [
        (46, &[0x02, 0x00, 0x10, 0x00][..]),
        (50, &[0x02, 0x00, 0x10, 0x00]),
        (54, &[0x01, 0x10]),
        (56, &[0x01, 0x10]),
        (58, &[0x01, 0x10]),
        (0, &[6]),
        (0, &[255]),
    ] {
        assert_eq!(answered_with(offset, bytes), 1, "{offset} {bytes:?}");
    }
}

#[test]
fn values_that_a_field_has_not_end_the_stream() {
    // the halted mark, the masking, the mark of a segment load, the permission, the gap rule, the kind of the patch
    for (offset, last) in [(1, 1), (2, 1), (61, 1), (62, 1), (63, 1), (72, 2)] {
        assert!(answered_with(offset, &[last]) > 1);
        assert_eq!(answered_with(offset, &[last + 1]), 1);
        assert_eq!(answered_with(offset, &[255]), 1);
    }
    // a request that is not built, and zero bytes
    for offset in [64, 65, 66, 67, 68, 69, 70, 71] {
        assert_eq!(answered_with(offset, &[1]), 1);
        assert_eq!(answered_with(offset, &[0x80]), 1);
    }
}

#[test]
fn refused_calls_report_no_dropped_bytes() {
    // PUSH AW drops its word, where the state is good and the call is accepted
    let dropped = |case: &Case| answer(case)[58..62].to_vec();
    let mut case = step_of(&[0x50]);
    assert_eq!(dropped(&case), [2, 0, 0, 0]);
    case.call = Call::Interrupt;
    assert_eq!(dropped(&case), [6, 0, 0, 0]);
    case.may_be_masked = true;
    assert_eq!((answer(&case)[0], dropped(&case)), (7, vec![0; 4]));
    case.call = Call::Step;
    case.state.psw = 0;
    assert_eq!((answer(&case)[0], dropped(&case)), (2, vec![0; 4]));
    // a run of PUSH AW and then NOPs, which ends as it began
    let mut case = step_of(&[0x50]);
    (case.call, case.budget) = (Call::Run, 3);
    assert_eq!(dropped(&case), [2, 0, 0, 0]);
    case.state.halted = true;
    assert_eq!((answer(&case)[0], dropped(&case)), (8, vec![0; 4]));
    case.call = Call::Reset;
    assert_eq!(dropped(&case), [0; 4]);
}

#[test]
fn patches_past_their_buffer_are_skipped() {
    let mut case = step_of(&[0x40]);
    let plain = answer(&case);
    for lent in [Lent::Ram, Lent::Rom, Lent::Log] {
        let index = if lent == Lent::Log { 4 } else { 16 };
        let value = 0xEE;
        case.patches.push(Patch { lent, index, value });
    }
    assert_eq!(answer(&case), plain);
}

#[test]
fn names_know_how_long_instructions_are() {
    let moves_pc = |opcode: &[u8]| match opcode[0] {
        0x70..=0x7F | 0x9A | 0xC2 | 0xC3 | 0xCA..=0xCF | 0xE0..=0xE3 | 0xE8..=0xEB => true,
        0x0F => opcode[1] == 0xFF,
        0x62 => true,
        0xF6 | 0xF7 => opcode[1] >> 3 & 7 >= 6,
        0xFF => (2..=5).contains(&(opcode[1] >> 3 & 7)),
        _ => false,
    };
    for opcode in (0..LENGTH_OF_WALK).map(walk) {
        let whole = opcode.len() > 1 || !has_operands(opcode[0]);
        if !whole || !is_in(&opcode) || moves_pc(&opcode) {
            continue;
        }
        let base = [0x0A; 6];
        let code = [&opcode[..], &base].concat();
        let mut case = step_of(&code);
        case.log_length = 9;
        case.tape = vec![1, 2];
        let after = answer(&case);
        let pc = usize::from(u16::from_le_bytes([after[34], after[35]]));
        assert_eq!(after[0], 0, "{opcode:02X?}");
        assert_eq!(pc, name(&code).length, "{opcode:02X?}");
    }
}

fn words_of(cases: &[u8], left: &[u8], right: &[u8]) -> (String, u64) {
    let mut text = Vec::new();
    let left = Answers {
        name: "A",
        bytes: left,
    };
    let right = Answers {
        name: "B",
        bytes: right,
    };
    let summary = diff(7, cases, left, right, &mut text).expect("memory does not fail");
    (String::from_utf8(text).expect("words"), summary.mismatched)
}

#[test]
fn mismatches_are_told_in_words() {
    let cases = bytes_of(&step_of(&[0xF3, 0x05, 0x34, 0x12])).repeat(2);
    let good = answers_of(&cases);
    let (text, mismatched) = words_of(&cases, &good, &good);
    assert_eq!(
        (&text[..], mismatched),
        (
            "2 step, 0 run, 0 interrupt, 0 reset, 0 log reading, 0 quicker run\n2 cases compared, 0 mismatched\n",
            0
        )
    );
    let mut bad = good.clone();
    bad[88 + 10] ^= 0xFF;
    bad[88 + 36] ^= 0x41;
    let (text, mismatched) = words_of(&cases, &good, &bad);
    assert_eq!(mismatched, 1);
    let lines: Vec<&str> = text.lines().collect();
    let what = "case 8: step of F3 05 34 12 (REP ADD)";
    assert_eq!(lines[0], format!("{what}: AW is 1234h by A, 12CBh by B"));
    assert_eq!(
        lines[1],
        format!("{what}: PSW is F002h by A, F043h by B (differing: CY Z)")
    );
    assert_eq!(lines[3], "2 cases compared, 1 mismatched");
}

#[test]
fn a_mismatched_reading_names_its_gap_rule() {
    let mut case = step_of(&[]);
    (case.call, case.fill, case.gap_rule) = (Call::LogReading, 1, GapRule::New);
    let cases = bytes_of(&case);
    let good = answers_of(&cases);
    let mut bad = good.clone();
    bad[4] = 0x80;
    let (text, _) = words_of(&cases, &good, &bad);
    let what = "case 7: log reading at place 0 under the new gap rule";
    let wanted = format!("{what}: the gap is 1 by A, 2147483649 by B");
    assert_eq!(text.lines().next(), Some(&wanted[..]));
}

#[test]
fn every_byte_of_an_answer_has_a_name() {
    let cases = bytes_of(&step_of(&[0x50]));
    let good = answers_of(&cases);
    for index in 0..good.len() {
        let mut bad = good.clone();
        bad[index] ^= 0x10;
        let (text, mismatched) = words_of(&cases, &good, &bad);
        assert_eq!((mismatched, text.lines().count()), (1, 3), "{text}");
    }
    let mut bad = good.clone();
    (bad[58], bad[62], bad[68], bad[85]) = (1, 7, 1, 1);
    let (text, _) = words_of(&cases, &good, &bad);
    let what = "case 7: step of 50 (PUSH reg16)";
    let wanted = [
        "the number of dropped bytes is 2 by A, 1 by B",
        "the number of clocks is 0 by A, 281474976710663 by B",
        "the zero at the end is 0 by A, 16777216 by B",
    ]
    .map(|words| format!("{what}: {words}"));
    assert_eq!(text.lines().take(3).collect::<Vec<_>>(), wanted);
}

#[test]
fn missing_and_spare_answers_are_told() {
    let cases = bytes_of(&step_of(&[0x40])).repeat(2);
    let good = answers_of(&cases);
    let (text, mismatched) = words_of(&cases, &good, &good[..100]);
    assert!(text.contains("case 8: B stopped before this case"));
    assert!(mismatched > 0);
    let spare = [&good[..], &[0]].concat();
    let (text, mismatched) = words_of(&cases, &spare, &good);
    assert!(text.contains("A wrote 1 bytes past the compared cases"));
    assert_eq!(mismatched, 1);
}
