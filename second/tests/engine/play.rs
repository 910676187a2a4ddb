//! Whole ROMs, played from reset.

use second::gap_rule::GapRule;
use second::listing;
use second::play::play;
use std::fs;
use std::process::{Command, Output};

/// A ROM of 16 bytes, so that reset begins at its first one.
fn list(log: &[u8]) -> String {
    listing::list(log, GapRule::New)
}

fn rom(code: &[u8]) -> Vec<u8> {
    let mut rom = code.to_vec();
    rom.resize(16, 0xFF);
    rom
}

#[test]
fn a_halt_ends_it() {
    // IN AL,10h; OUT 60h,AL; HALT
    let played = play(&rom(&[0xE4, 0x10, 0xE6, 0x60, 0xF4]), &[0x41], 0, 100);
    assert_eq!(played.why_it_stopped(), (8, "the machine is halted"));
    assert_eq!((played.steps, played.bus_cycles), (3, 2));
    assert_eq!(
        list(&played.log),
        "1 IN 0010 41\n2 OUT 0060 41\n2 records\n"
    );
}

#[test]
fn a_short_tape_ends_it_before_the_read() {
    // IN AL,10h; BR back to it
    let played = play(&rom(&[0xE4, 0x10, 0xEB, 0xFC]), &[0x01, 0x02], 0, 100);
    assert_eq!(played.why_it_stopped(), (5, "the tape is too short"));
    assert_eq!(played.steps, 4);
    assert_eq!(list(&played.log), "1 IN 0010 01\n3 IN 0010 02\n2 records\n");
}

#[test]
fn it_goes_on_beyond_the_budget_of_one_run() {
    // BR to itself
    for steps in [0, 1, 65_535, 65_536, 200_000] {
        let played = play(&rom(&[0xEB, 0xFE]), &[], 0, steps);
        assert_eq!(played.why_it_stopped(), (0, "the steps are spent"));
        assert_eq!(played.steps, steps);
    }
}

#[test]
fn a_full_log_ends_it() {
    // OUT 60h,AL; BR back to it: a record has 4 bytes, and 16,384 of them fill the log
    let played = play(&rom(&[0xE6, 0x60, 0xEB, 0xFC]), &[], 0, 100_000);
    assert_eq!(played.why_it_stopped(), (6, "the log is full"));
    assert_eq!((played.steps, played.log.len()), (32_768, 65_536));
}

#[test]
fn ram_is_as_large_as_asked() {
    // MOV [0000h],AL; MOV AL,[0000h]; OUT 60h,AL; HALT
    let code = [0xA2, 0x00, 0x00, 0xA0, 0x00, 0x00, 0xE6, 0x60, 0xF4];
    assert_eq!(
        list(&play(&rom(&code), &[], 1, 9).log),
        "3 OUT 0060 00\n1 records\n"
    );
    assert_eq!(
        list(&play(&rom(&code), &[], 0, 9).log),
        "3 OUT 0060 FF\n1 records\n"
    );
}

#[test]
fn too_much_memory_is_refused() {
    let played = play(&rom(&[0xF4]), &[], 1_048_561, 9);
    let words = "RAM and ROM exceed the address space";
    assert_eq!(played.why_it_stopped(), (1, words));
    assert_eq!((played.steps, played.log.len()), (0, 0));
}

/// The program `play` with these words, in a folder of its own with a ROM that halts, a tape and a log that is already there.
fn program(folder: &str, words: &[&str]) -> (Output, Vec<u8>) {
    let folder = std::env::temp_dir().join(format!("play-{}-{folder}", std::process::id()));
    fs::create_dir(&folder).unwrap();
    fs::write(folder.join("rom"), rom(&[0xE4, 0x10, 0xF4])).unwrap();
    fs::write(folder.join("drops"), rom(&[0xA3, 0x00, 0x00, 0xF4])).unwrap();
    fs::write(folder.join("long rom"), vec![0xF4; 1_048_577]).unwrap();
    fs::write(folder.join("tape"), [0x41]).unwrap();
    fs::write(folder.join("log"), "as it was").unwrap();
    let output = Command::new(env!("CARGO_BIN_EXE_play"))
        .args(words)
        .current_dir(&folder)
        .output()
        .unwrap();
    let log = fs::read(folder.join("log")).unwrap();
    fs::remove_dir_all(folder).unwrap();
    (output, log)
}

#[test]
fn the_program_writes_the_log_and_says_why_it_stopped() {
    let (output, log) = program("good", &["rom", "tape", "log", "0", "9"]);
    let said = String::from_utf8(output.stdout).unwrap();
    assert_eq!(
        said,
        "stopped with 8: the machine is halted; 2 steps, 1 bus cycles\n"
    );
    assert_eq!(output.status.code(), Some(0));
    assert_eq!(log, [0x01, 0x40, 0x41]);
}

#[test]
fn dropped_bytes_are_summed_and_said() {
    // MOV [0000h],AW; BR back to it
    let played = play(&rom(&[0xA3, 0x00, 0x00, 0xEB, 0xFB]), &[], 1, 200_000);
    assert_eq!(
        (played.bus_cycles, played.dropped_bytes),
        (100_000, 100_000)
    );
    let (output, _) = program("drops", &["drops", "tape", "log", "0", "9"]);
    let said = String::from_utf8(output.stdout).unwrap();
    assert_eq!(
        said,
        "stopped with 8: the machine is halted; 2 steps, 1 bus cycles, dropped 2 bytes\n"
    );
}

#[test]
fn the_program_refuses_bad_words_in_one_line_and_leaves_the_log() {
    let cases: [(&[&str], &str); 7] = [
        (&[], "usage: play ROM TAPE LOG RAM_BYTES STEPS"),
        (&["no rom", "tape", "log", "0", "9"], "no rom: "),
        (&["rom", "no tape", "log", "0", "9"], "no tape: "),
        (
            &["long rom", "tape", "log", "0", "9"],
            "RAM and ROM exceed the address space",
        ),
        (
            &["rom", "tape", "log", "1048561", "9"],
            "RAM and ROM exceed the address space",
        ),
        (
            &["rom", "tape", "log", "0", "-1"],
            "-1 is not a number that can be used",
        ),
        (
            &["rom", "tape", "no folder/log", "0", "9"],
            "no folder/log: ",
        ),
    ];
    for (case, (words, begins)) in cases.into_iter().enumerate() {
        let (output, log) = program(&format!("bad-{case}"), words);
        let said = String::from_utf8(output.stderr).unwrap();
        assert!(said.starts_with(&format!("play: {begins}")), "{said}");
        assert_eq!(said.lines().count(), 1);
        assert_eq!(output.status.code(), Some(2));
        assert_eq!(log, b"as it was");
    }
}
