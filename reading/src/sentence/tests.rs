use super::*;
use crate::line::{line, Line};
use crate::notes::Notes;
use crate::phrase::plain;

const AT: u32 = 0xFFF46;

fn listed(words: &str) -> Line {
    line(&format!("{AT:05X} 9000               {words}")).unwrap()
}

fn told_by(words: &str, here: &Here) -> String {
    plain(&sentence(&listed(words).instruction, here).expect(words))
}

fn told(words: &str, notes: &str) -> String {
    told_by(words, &Here::alone(AT, &Notes::parse(notes).unwrap()))
}

#[test]
fn plain_ones() {
    for (words, wanted) in [
        ("MOV CL,02", "CL becomes 2."),
        ("MOV AL,18", "AL becomes 18h (24)."),
        ("BC FFF69", "If there was a borrow or carry (CY is 1), go on at FFF69."),
        ("SHL AL,1", "Shift AL left by 1 bit; zeros come in, and CY becomes the last bit that left."),
        ("TEST1 AL,0B", "Look at bit 3 of AL; Z becomes 1 if it is 0."),
        ("MOV WORD SS:[BP+FFFE],AW", "The word at SS:BP - 2 becomes AW."),
        ("AND AL,F0", "Keep only the upper digit of AL, bits 4 to 7 (F0h); its other bits become 0."),
        ("BR FFF0:0010", "Go on at FFF10, in segment FFF0h, offset 0010h."),
        ("BRKEM 40", "Go into 8080 code by interrupt vector 40h (64); it comes back here by its RETEM."),
        (
            "INS AL,03,WORD DS1:[IY]",
            "Store the lowest 4 bits of AW at DS1:IY, from the bit on whose number is in AL; AL and IY go on behind them.",
        ),
        (
            "SUB4S BYTE DS1:[IY],BYTE DS0:[IX]",
            "Take the decimal digits at DS0:IX from those at DS1:IY, as many as CL says; CY tells of a borrow.",
        ),
        (
            "REP INM BYTE DS1:[IY],DW",
            "Read as many bytes as CW says from the port whose number is in DW, and store them from DS1:IY on.",
        ),
    ] {
        assert_eq!(told(words, ""), wanted);
    }
}

#[test]
fn names_of_the_notes() {
    let notes = "port 10 the tape\ncell 0400 the season's year\nat FFF46 AL the birth year\nplace FFF69 too young\n";
    for (words, wanted) in [
        (
            "IN AL,10",
            "Read the birth year from the tape (port 10h) into AL.",
        ),
        (
            "OUT 10,AL",
            "Write the birth year (in AL) to the tape (port 10h).",
        ),
        (
            "MOV BYTE DS0:[0400],AL",
            "The season's year (byte DS0:0400h) becomes AL (the birth year).",
        ),
        (
            "MOV IX,0400",
            "IX becomes 400h, the place of the season's year.",
        ),
        (
            "CALL FFF69",
            "Do the routine too young (FFF69) and come back here.",
        ),
    ] {
        assert_eq!(told(words, notes), wanted);
    }
}

#[test]
fn a_comparison_right_before() {
    let before = listed("CMP AL,18");
    let notes = Notes::parse("at FFF44 18 eighteen years").unwrap();
    let here = Here {
        before: Some((0xFFF44, &before.instruction)),
        ..Here::alone(AT, &notes)
    };
    assert_eq!(
        told_by("BC FFF69", &here),
        "If AL was less than 18h (eighteen years), so that there was a borrow (CY is 1), go on at FFF69."
    );
}

#[test]
fn what_the_lines_before_set() {
    let notes = Notes::parse("port 10 the tape\ncell 0405 the time").unwrap();
    let set =
        [("CW", 3), ("DW", 0x10), ("IY", 0x405)].map(|(name, value)| (name.to_string(), value));
    let here = Here {
        set: &set,
        ..Here::alone(AT, &notes)
    };
    assert_eq!(
        told_by("REP INM BYTE DS1:[IY],DW", &here),
        "Read as many bytes as CW (3) says from the tape (port 10h, in DW), and store them from DS1:IY (the time) on."
    );
}

#[test]
fn where_no_line_is_shown() {
    let notes = Notes::default();
    let here = Here {
        start: 0xFFF00,
        shown: &|_| false,
        ..Here::alone(AT, &notes)
    };
    assert_eq!(
        told_by("CALL 00123", &here),
        "Do the routine 00123 (outside of this ROM) and come back here."
    );
    assert_eq!(
        told_by("CALL FFF45", &here),
        "Do the routine FFF45 (inside of another line) and come back here."
    );
}

#[test]
fn no_sentence_for_other_words() {
    let strange = Instruction {
        repeat: None,
        name: "MUV".to_string(),
        operands: Vec::new(),
    };
    assert_eq!(
        sentence(&strange, &Here::alone(AT, &Notes::default())),
        None
    );
}
