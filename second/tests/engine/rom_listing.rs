//! The listing of a ROM and the image rebuilt from it.

use second::judge::generate::encodings::{prefixes, random_opcode, with_tail};
use second::judge::generate::random::Random;
use second::rom_listing::{list, rebuild, LONGEST_IMAGE};
use std::io::Write;
use std::process::{Command, Output, Stdio};

fn text(image: &[u8]) -> String {
    String::from_utf8(list(image).unwrap()).unwrap()
}

/// The words of an image that is a single instruction.
fn words(bytes: &[u8]) -> String {
    let text = text(bytes);
    let digits: String = bytes.iter().map(|byte| format!("{byte:02X}")).collect();
    let before = format!("{:05X} {digits:18} ", 0x100000 - bytes.len());
    let words = text.strip_prefix(&before);
    let words = words.and_then(|rest| rest.strip_suffix('\n'));
    words.unwrap_or_else(|| panic!("{text}")).to_string()
}

/// Each instruction with the words that it must have.
fn listed_as(rows: &[(&[u8], &str)]) {
    for (bytes, expected) in rows {
        assert_eq!(words(bytes), *expected);
    }
}

/// The bytes are all listed as data.
fn is_data(bytes: &[u8]) {
    let text = text(bytes);
    let data: Vec<&str> = text.lines().map(|line| &line[25..]).collect();
    let expected: Vec<String> = bytes.iter().map(|byte| format!("DB {byte:02X}")).collect();
    assert_eq!(data, expected);
}

#[test]
fn whole_lines() {
    // MOV AL,12h; three prefixes before ADD word [BW+IX+1234h],5678h; no instruction; NOP
    let image = [
        0xB0, 0x12, 0x26, 0xF0, 0xF3, 0x81, 0x80, 0x34, 0x12, 0x78, 0x56, 0x63, 0x90,
    ];
    let expected = "\
        FFFF3 B012               MOV AL,12\n\
        FFFF5 26F0F3818034127856 ADD WORD DS1:[BW+IX+1234],5678\n\
        FFFFE 63                 DB 63\n\
        FFFFF 90                 NOP\n";
    assert_eq!(text(&image), expected);
    assert_eq!(rebuild(expected.as_bytes()), Ok(image.to_vec()));
}

#[test]
fn the_entry_of_the_demonstration() {
    let rom = std::fs::read("../roms/classes/classes.rom").unwrap();
    let text = text(&rom);
    let lines: Vec<&str> = text.lines().collect();
    let first = [
        "FFF00 B80000             MOV AW,0000",
        "FFF03 8ED8               MOV DS0,AW",
        "FFF05 8EC0               MOV DS1,AW",
        "FFF07 8ED0               MOV SS,AW",
        "FFF09 BC0010             MOV SP,1000",
        "FFF0C FC                 CLR1 DIR",
        "FFF0D E410               IN AL,10",
        "FFF0F A20004             MOV BYTE DS0:[0400],AL",
        "FFF12 E410               IN AL,10",
        "FFF14 3CFF               CMP AL,FF",
        "FFF16 7411               BE FFF29",
        "FFF18 A20104             MOV BYTE DS0:[0401],AL",
        "FFF1B E80E00             CALL FFF2C",
    ];
    assert_eq!(lines[..first.len()], first);
    for line in [
        "FFF27 EBE9               BR FFF12",
        "FFF29 F4                 HALT",
        "FFF2A EBFD               BR FFF29",
        "FFF35 F36C               REP INM BYTE DS1:[IY],DW",
        "FFF46 0F22               SUB4S BYTE DS1:[IY],BYTE DS0:[IX]",
        "FFFF0 EA0000F0FF         BR FFF0:0000",
    ] {
        assert!(lines.contains(&line), "{line}");
    }
    // FF FF begins with a reg field of 7, and the last one is cut
    assert_eq!(lines.last(), Some(&"FFFFF FF                 DB FF"));
    assert_eq!(rebuild(text.as_bytes()), Ok(rom));
}

#[test]
fn memory_operands() {
    listed_as(&[
        (&[0x8A, 0x40, 0x12], "MOV AL,BYTE DS0:[BW+IX+0012]"),
        (&[0x26, 0xA1, 0x34, 0x12], "MOV AW,WORD DS1:[1234]"),
        (&[0xC5, 0x46, 0x00], "MOV DS0,AW,DWORD SS:[BP]"),
        (&[0x8A, 0x00], "MOV AL,BYTE DS0:[BW+IX]"),
        (&[0x8A, 0x09], "MOV CL,BYTE DS0:[BW+IY]"),
        (&[0x8A, 0x12], "MOV DL,BYTE SS:[BP+IX]"),
        (&[0x8A, 0x1B], "MOV BL,BYTE SS:[BP+IY]"),
        (&[0x8A, 0x24], "MOV AH,BYTE DS0:[IX]"),
        (&[0x8A, 0x2D], "MOV CH,BYTE DS0:[IY]"),
        (&[0x8A, 0x36, 0x34, 0x12], "MOV DH,BYTE DS0:[1234]"),
        (&[0x8A, 0x3F], "MOV BH,BYTE DS0:[BW]"),
        (&[0x8B, 0x76, 0x7F], "MOV IX,WORD SS:[BP+007F]"),
        (&[0x8B, 0x7E, 0x80], "MOV IY,WORD SS:[BP+FF80]"),
        (&[0x8B, 0xA6, 0xFF, 0x7F], "MOV SP,WORD SS:[BP+7FFF]"),
        (&[0x8B, 0xAF, 0x05, 0x00], "MOV BP,WORD DS0:[BW+0005]"),
        // a displacement of 0 is not typed, an address is
        (&[0x8B, 0x44, 0x00], "MOV AW,WORD DS0:[IX]"),
        (&[0x8B, 0x81, 0x00, 0x00], "MOV AW,WORD DS0:[BW+IY]"),
        (&[0x8B, 0x06, 0x00, 0x00], "MOV AW,WORD DS0:[0000]"),
        (&[0xA0, 0x00, 0x00], "MOV AL,BYTE DS0:[0000]"),
    ]);
}

#[test]
fn transfers() {
    listed_as(&[
        (&[0x8A, 0xC1], "MOV AL,CL"),
        (&[0x8B, 0xD3], "MOV DW,BW"),
        (&[0x88, 0xC1], "MOV CL,AL"),
        (&[0x89, 0xD3], "MOV BW,DW"),
        (&[0x88, 0x27], "MOV BYTE DS0:[BW],AH"),
        (&[0xC6, 0x07, 0x05], "MOV BYTE DS0:[BW],05"),
        (&[0xC7, 0x07, 0x34, 0x12], "MOV WORD DS0:[BW],1234"),
        (&[0xC7, 0xC4, 0x05, 0x00], "MOV SP,0005"),
        (&[0xB7, 0x0A], "MOV BH,0A"),
        (&[0xBF, 0xCD, 0xAB], "MOV IY,ABCD"),
        (&[0xA0, 0x34, 0x12], "MOV AL,BYTE DS0:[1234]"),
        (&[0xA2, 0x34, 0x12], "MOV BYTE DS0:[1234],AL"),
        (&[0xA3, 0x34, 0x12], "MOV WORD DS0:[1234],AW"),
        (&[0x8E, 0xC3], "MOV DS1,BW"),
        (&[0x8E, 0x17], "MOV SS,WORD DS0:[BW]"),
        (&[0x8E, 0xDB], "MOV DS0,BW"),
        (&[0x8C, 0xC8], "MOV AW,PS"),
        (&[0x8C, 0x1F], "MOV WORD DS0:[BW],DS0"),
        (&[0xC5, 0x37], "MOV DS0,IX,DWORD DS0:[BW]"),
        (&[0xC4, 0x3F], "MOV DS1,IY,DWORD DS0:[BW]"),
        (&[0x9F], "MOV AH,PSW"),
        (&[0x9E], "MOV PSW,AH"),
        (&[0x8D, 0x40, 0x12], "LDEA AW,DS0:[BW+IX+0012]"),
        (&[0xD7], "TRANS BYTE DS0:[BW]"),
        (&[0x86, 0xC1], "XCH AL,CL"),
        (&[0x87, 0x17], "XCH DW,WORD DS0:[BW]"),
        (&[0x91], "XCH CW,AW"),
        (&[0x97], "XCH IY,AW"),
        (&[0x90], "NOP"),
    ]);
}

#[test]
fn blocks_fields_and_ports() {
    listed_as(&[
        (&[0xA4], "MOVBK BYTE DS1:[IY],BYTE DS0:[IX]"),
        (&[0xA5], "MOVBK WORD DS1:[IY],WORD DS0:[IX]"),
        (&[0xA6], "CMPBK BYTE DS0:[IX],BYTE DS1:[IY]"),
        (&[0xA7], "CMPBK WORD DS0:[IX],WORD DS1:[IY]"),
        (&[0xAE], "CMPM BYTE DS1:[IY]"),
        (&[0xAD], "LDM WORD DS0:[IX]"),
        (&[0xAA], "STM BYTE DS1:[IY]"),
        (&[0x6C], "INM BYTE DS1:[IY],DW"),
        (&[0x6D], "INM WORD DS1:[IY],DW"),
        (&[0x6E], "OUTM DW,BYTE DS0:[IX]"),
        (&[0x6F], "OUTM DW,WORD DS0:[IX]"),
        (&[0xF3, 0xA4], "REP MOVBK BYTE DS1:[IY],BYTE DS0:[IX]"),
        (&[0xF2, 0xAF], "REPNE CMPM WORD DS1:[IY]"),
        (&[0x65, 0xA7], "REPC CMPBK WORD DS0:[IX],WORD DS1:[IY]"),
        (&[0x64, 0xAB], "REPNC STM WORD DS1:[IY]"),
        // the low field has the offset's register, the reg field the length's
        (&[0x0F, 0x31, 0xC8], "INS AL,CL,WORD DS1:[IY]"),
        (&[0x0F, 0x39, 0xC1, 0x0F], "INS CL,0F,WORD DS1:[IY]"),
        (&[0x0F, 0x33, 0xD7], "EXT BH,DL,WORD DS0:[IX]"),
        (&[0x0F, 0x3B, 0xC0, 0x05], "EXT AL,05,WORD DS0:[IX]"),
        (&[0xE4, 0x10], "IN AL,10"),
        (&[0xE5, 0x10], "IN AW,10"),
        (&[0xEC], "IN AL,DW"),
        (&[0xED], "IN AW,DW"),
        (&[0xE6, 0x60], "OUT 60,AL"),
        (&[0xE7, 0x60], "OUT 60,AW"),
        (&[0xEE], "OUT DW,AL"),
        (&[0xEF], "OUT DW,AW"),
    ]);
}

#[test]
fn arithmetic() {
    listed_as(&[
        (&[0x00, 0x07], "ADD BYTE DS0:[BW],AL"),
        (&[0x01, 0xC1], "ADD CW,AW"),
        (&[0x03, 0xC1], "ADD AW,CW"),
        (&[0x04, 0x05], "ADD AL,05"),
        (&[0x05, 0x05, 0x00], "ADD AW,0005"),
        (&[0x80, 0xC1, 0xFF], "ADD CL,FF"),
        (&[0x82, 0x07, 0xFF], "ADD BYTE DS0:[BW],FF"),
        (&[0x83, 0xC1, 0xFF], "ADD CW,FFFF"),
        (&[0x83, 0xC1, 0x7F], "ADD CW,007F"),
        (&[0x12, 0x07], "ADDC AL,BYTE DS0:[BW]"),
        (&[0x81, 0xD3, 0x34, 0x12], "ADDC BW,1234"),
        (&[0x28, 0xC8], "SUB AL,CL"),
        (&[0x83, 0xEC, 0x02], "SUB SP,0002"),
        (&[0x1B, 0x07], "SUBC AW,WORD DS0:[BW]"),
        (&[0x82, 0xD8, 0x01], "SUBC AL,01"),
        (&[0x0F, 0x20], "ADD4S BYTE DS1:[IY],BYTE DS0:[IX]"),
        (&[0x0F, 0x22], "SUB4S BYTE DS1:[IY],BYTE DS0:[IX]"),
        (&[0x0F, 0x26], "CMP4S BYTE DS1:[IY],BYTE DS0:[IX]"),
        (&[0x0F, 0x28, 0xC3], "ROL4 BL"),
        (&[0x0F, 0x28, 0x04], "ROL4 BYTE DS0:[IX]"),
        (&[0x0F, 0x2A, 0xC7], "ROR4 BH"),
        (&[0x0F, 0x2A, 0x45, 0xFE], "ROR4 BYTE DS0:[IY+FFFE]"),
        (&[0xFE, 0xC0], "INC AL"),
        (&[0xFE, 0x07], "INC BYTE DS0:[BW]"),
        (&[0xFF, 0xC0], "INC AW"),
        (&[0x44], "INC SP"),
        (&[0xFE, 0xCF], "DEC BH"),
        (&[0xFF, 0x0F], "DEC WORD DS0:[BW]"),
        (&[0x4F], "DEC IY"),
        (&[0xF6, 0xE1], "MULU CL"),
        (&[0xF7, 0x27], "MULU WORD DS0:[BW]"),
        (&[0xF6, 0x2F], "MUL BYTE DS0:[BW]"),
        (&[0xF7, 0xE9], "MUL CW"),
        (&[0x6B, 0xC1, 0xFE], "MUL AW,CW,FFFE"),
        (&[0x6B, 0xC0, 0x0A], "MUL AW,AW,000A"),
        (&[0x69, 0x17, 0x34, 0x12], "MUL DW,WORD DS0:[BW],1234"),
        (&[0xF6, 0xF1], "DIVU CL"),
        (&[0xF7, 0x37], "DIVU WORD DS0:[BW]"),
        (&[0xF6, 0x3F], "DIV BYTE DS0:[BW]"),
        (&[0xF7, 0xF9], "DIV CW"),
        (&[0x37], "ADJBA"),
        (&[0x27], "ADJ4A"),
        (&[0x3F], "ADJBS"),
        (&[0x2F], "ADJ4S"),
        (&[0xD4, 0x0A], "CVTBD"),
        (&[0xD5, 0x0A], "CVTDB"),
        (&[0x98], "CVTBW"),
        (&[0x99], "CVTWL"),
        (&[0x38, 0x07], "CMP BYTE DS0:[BW],AL"),
        (&[0x3D, 0x00, 0x80], "CMP AW,8000"),
        (&[0x83, 0x3F, 0x80], "CMP WORD DS0:[BW],FF80"),
        (&[0xF7, 0xD1], "NOT CW"),
        (&[0xF6, 0x1F], "NEG BYTE DS0:[BW]"),
    ]);
}

#[test]
fn logic_bits_and_shifts() {
    listed_as(&[
        // the low field comes first, as the row's reg' reg has it
        (&[0x84, 0xC8], "TEST AL,CL"),
        (&[0x85, 0x17], "TEST WORD DS0:[BW],DW"),
        (&[0xF6, 0xC1, 0x80], "TEST CL,80"),
        (&[0xF7, 0x07, 0x01, 0x00], "TEST WORD DS0:[BW],0001"),
        (&[0xA8, 0x80], "TEST AL,80"),
        (&[0xA9, 0x80, 0x00], "TEST AW,0080"),
        (&[0x22, 0xC1], "AND AL,CL"),
        (&[0x83, 0xE0, 0xF0], "AND AW,FFF0"),
        (&[0x09, 0x07], "OR WORD DS0:[BW],AW"),
        (&[0x0C, 0x05], "OR AL,05"),
        (&[0x33, 0xC0], "XOR AW,AW"),
        (&[0x80, 0x37, 0x0F], "XOR BYTE DS0:[BW],0F"),
        (&[0x0F, 0x10, 0xC0], "TEST1 AL,CL"),
        (&[0x0F, 0x19, 0x07, 0x0F], "TEST1 WORD DS0:[BW],0F"),
        (&[0x0F, 0x16, 0x07], "NOT1 BYTE DS0:[BW],CL"),
        (&[0x0F, 0x1F, 0xC4, 0x09], "NOT1 SP,09"),
        (&[0x0F, 0x12, 0xC4], "CLR1 AH,CL"),
        (&[0x0F, 0x1A, 0xC4, 0xF7], "CLR1 AH,F7"),
        (&[0x0F, 0x15, 0xC4], "SET1 SP,CL"),
        (
            &[0x0F, 0x1C, 0x47, 0x01, 0x03],
            "SET1 BYTE DS0:[BW+0001],03",
        ),
        (&[0xF5], "NOT1 CY"),
        (&[0xF8], "CLR1 CY"),
        (&[0xF9], "SET1 CY"),
        (&[0xFC], "CLR1 DIR"),
        (&[0xFD], "SET1 DIR"),
        (&[0xD0, 0xE0], "SHL AL,1"),
        (&[0xD3, 0xE0], "SHL AW,CL"),
        (&[0xC0, 0xE0, 0x01], "SHL AL,01"),
        (&[0xC1, 0xE8, 0xFF], "SHR AW,FF"),
        (&[0xD2, 0x3F], "SHRA BYTE DS0:[BW],CL"),
        (&[0xD1, 0x07], "ROL WORD DS0:[BW],1"),
        (&[0xD0, 0xCB], "ROR BL,1"),
        (&[0xD1, 0xD4], "ROLC SP,1"),
        (&[0xC0, 0x1F, 0x04], "RORC BYTE DS0:[BW],04"),
    ]);
}

#[test]
fn stack_calls_and_control() {
    listed_as(&[
        (&[0xFF, 0x37], "PUSH WORD DS0:[BW]"),
        (&[0xFF, 0xF4], "PUSH SP"),
        (&[0x50], "PUSH AW"),
        (&[0x06], "PUSH DS1"),
        (&[0x0E], "PUSH PS"),
        (&[0x16], "PUSH SS"),
        (&[0x1E], "PUSH DS0"),
        (&[0x9C], "PUSH PSW"),
        (&[0x60], "PUSH R"),
        (&[0x6A, 0x80], "PUSH FF80"),
        (&[0x68, 0x34, 0x12], "PUSH 1234"),
        (&[0x8F, 0x07], "POP WORD DS0:[BW]"),
        (&[0x8F, 0xC0], "POP AW"),
        (&[0x5F], "POP IY"),
        (&[0x07], "POP DS1"),
        (&[0x17], "POP SS"),
        (&[0x1F], "POP DS0"),
        (&[0x9D], "POP PSW"),
        (&[0x61], "POP R"),
        (&[0xC8, 0x10, 0x00, 0x02], "PREPARE 0010,02"),
        (&[0xC9], "DISPOSE"),
        (&[0xFF, 0xD0], "CALL AW"),
        (&[0xFF, 0x17], "CALL WORD DS0:[BW]"),
        (&[0xFF, 0x1F], "CALL DWORD DS0:[BW]"),
        (&[0x9A, 0x78, 0x56, 0x34, 0x12], "CALL 1234:5678"),
        (&[0xC3], "RET"),
        (&[0xC2, 0x04, 0x00], "RET 0004"),
        (&[0xCB], "RET"),
        (&[0xCA, 0x04, 0x00], "RET 0004"),
        (&[0xFF, 0xE3], "BR BW"),
        (&[0xFF, 0x27], "BR WORD DS0:[BW]"),
        (&[0xFF, 0x2F], "BR DWORD DS0:[BW]"),
        (&[0xEA, 0x78, 0x56, 0x34, 0x12], "BR 1234:5678"),
        (&[0xCC], "BRK 3"),
        (&[0xCD, 0x03], "BRK 03"),
        (&[0xCD, 0x21], "BRK 21"),
        (&[0xCE], "BRKV"),
        (&[0xCF], "RETI"),
        (&[0x62, 0x07], "CHKIND AW,DWORD DS0:[BW]"),
        (&[0xF4], "HALT"),
        (&[0xFA], "DI"),
        (&[0xFB], "EI"),
    ]);
}

#[test]
fn branches_lead_to_addresses() {
    // the instruction of two bytes lies at FFFFE, and the next one would be at 100000h
    listed_as(&[
        (&[0x70, 0xFE], "BV FFFFE"),
        (&[0x71, 0xF0], "BNV FFFF0"),
        (&[0x72, 0x80], "BC FFF80"),
        (&[0x73, 0xFF], "BNC FFFFF"),
        (&[0x74, 0x00], "BE 00000"),
        (&[0x75, 0x01], "BNE 00001"),
        (&[0x76, 0x7F], "BNH 0007F"),
        (&[0x77, 0xFE], "BH FFFFE"),
        (&[0x78, 0xFE], "BN FFFFE"),
        (&[0x79, 0xFE], "BP FFFFE"),
        (&[0x7A, 0xFE], "BPE FFFFE"),
        (&[0x7B, 0xFE], "BPO FFFFE"),
        (&[0x7C, 0xFE], "BLT FFFFE"),
        (&[0x7D, 0xFE], "BGE FFFFE"),
        (&[0x7E, 0xFE], "BLE FFFFE"),
        (&[0x7F, 0xFE], "BGT FFFFE"),
        (&[0xE0, 0xFE], "DBNZNE FFFFE"),
        (&[0xE1, 0xFE], "DBNZE FFFFE"),
        (&[0xE2, 0xFE], "DBNZ FFFFE"),
        (&[0xE3, 0xFE], "BCWZ FFFFE"),
        (&[0xEB, 0xFE], "BR FFFFE"),
        (&[0xE9, 0xFD, 0xFF], "BR FFFFD"),
        (&[0xE9, 0x34, 0x12], "BR 01234"),
        (&[0xE9, 0xFF, 0x7F], "BR 07FFF"),
        (&[0xE9, 0x00, 0x80], "BR F8000"),
        (&[0xE8, 0x00, 0xFF], "CALL FFF00"),
        // the prefix belongs to the instruction
        (&[0xF3, 0xEB, 0xFD], "BR FFFFD"),
    ]);
}

#[test]
fn branches_inside_an_image() {
    // CALL forward over BR back to the call; BNE forward; HALT
    let image = [0xE8, 0x02, 0x00, 0xEB, 0xFB, 0x75, 0x00, 0xF4];
    let expected = "\
        FFFF8 E80200             CALL FFFFD\n\
        FFFFB EBFB               BR FFFF8\n\
        FFFFD 7500               BNE FFFFF\n\
        FFFFF F4                 HALT\n";
    assert_eq!(text(&image), expected);
}

#[test]
fn prefixes_show_in_what_they_do() {
    listed_as(&[
        (&[0x2E, 0x8A, 0x07], "MOV AL,BYTE PS:[BW]"),
        (&[0x36, 0x8A, 0x07], "MOV AL,BYTE SS:[BW]"),
        (&[0x3E, 0x8A, 0x46, 0x01], "MOV AL,BYTE DS0:[BP+0001]"),
        (&[0x26, 0xA2, 0x34, 0x12], "MOV BYTE DS1:[1234],AL"),
        (&[0x2E, 0xD7], "TRANS BYTE PS:[BW]"),
        (&[0x2E, 0x8D, 0x07], "LDEA AW,PS:[BW]"),
        (&[0x2E, 0xA4], "MOVBK BYTE DS1:[IY],BYTE PS:[IX]"),
        (&[0x2E, 0xA6], "CMPBK BYTE PS:[IX],BYTE DS1:[IY]"),
        (&[0x2E, 0xAC], "LDM BYTE PS:[IX]"),
        (&[0x2E, 0x6E], "OUTM DW,BYTE PS:[IX]"),
        (&[0x2E, 0x0F, 0x26], "CMP4S BYTE DS1:[IY],BYTE PS:[IX]"),
        (&[0x2E, 0x0F, 0x33, 0xC8], "EXT AL,CL,WORD PS:[IX]"),
        // what has no operand that obeys them shows them in its bytes alone
        (&[0x2E, 0xAA], "STM BYTE DS1:[IY]"),
        (&[0x2E, 0xAE], "CMPM BYTE DS1:[IY]"),
        (&[0x2E, 0x6C], "INM BYTE DS1:[IY],DW"),
        (&[0x2E, 0x0F, 0x31, 0xC8], "INS AL,CL,WORD DS1:[IY]"),
        (&[0x2E, 0x8A, 0xC1], "MOV AL,CL"),
        (&[0x26, 0x90], "NOP"),
        (&[0xF0, 0x90], "NOP"),
        (&[0xF3, 0x90], "NOP"),
        (&[0xF3, 0x0F, 0x20], "ADD4S BYTE DS1:[IY],BYTE DS0:[IX]"),
        (&[0xF0, 0xA4], "MOVBK BYTE DS1:[IY],BYTE DS0:[IX]"),
        // of two alike in kind the last counts
        (&[0x26, 0x36, 0x8A, 0x07], "MOV AL,BYTE SS:[BW]"),
        (&[0xF3, 0x64, 0xAC], "REPNC LDM BYTE DS0:[IX]"),
        (
            &[0x65, 0x26, 0xF2, 0xA6],
            "REPNE CMPBK BYTE DS1:[IX],BYTE DS1:[IY]",
        ),
        (&[0xF0, 0xF0, 0xF0, 0xF4], "HALT"),
    ]);
}

#[test]
fn a_fourth_prefix_is_data() {
    // the first of four is no instruction's, the other three belong to NOP
    let expected = "\
        FFFFB 26                 DB 26\n\
        FFFFC F3F02E90           NOP\n";
    assert_eq!(text(&[0x26, 0xF3, 0xF0, 0x2E, 0x90]), expected);
    is_data(&[0xF3, 0xF3, 0xF3, 0xF3]);
}

#[test]
fn what_names_no_instruction_is_data() {
    for byte in [0x63, 0x66, 0x67, 0x9B, 0xD6, 0xD8, 0xDF, 0xF1] {
        is_data(&[byte]);
    }
    let refused: [&[u8]; 34] = [
        // register forms of LDEA, of the pointer loads, of CHKIND and of the far calls and branches
        &[0x8D, 0xC6],
        &[0xC4, 0xC6],
        &[0xC5, 0xC6],
        &[0x62, 0xC6],
        &[0xFF, 0xD9],
        &[0xFF, 0xE8],
        // reg fields that name nothing
        &[0xFF, 0x3F],
        &[0xFE, 0x17],
        &[0x8F, 0xC8],
        &[0xC6, 0xC8, 0x00],
        &[0xC7, 0xC8, 0x00, 0x00],
        &[0xF6, 0xC8, 0x00],
        &[0xF7, 0xC8, 0x00, 0x00],
        &[0xC0, 0xF6, 0x00],
        &[0xD0, 0xF6],
        &[0x8C, 0xE0],
        &[0x8E, 0xE0],
        &[0x0F, 0x10, 0xC8],
        &[0x0F, 0x17, 0x0F],
        &[0x0F, 0x18, 0xC8, 0x00],
        &[0x0F, 0x1F, 0xC8, 0x00],
        &[0x0F, 0x28, 0xC8],
        &[0x0F, 0x2A, 0xC8],
        &[0x0F, 0x39, 0xC8, 0x00],
        &[0x0F, 0x3B, 0xC8, 0x00],
        // PS cannot be loaded
        &[0x8E, 0xC8],
        // fields whose registers would be in memory
        &[0x0F, 0x31, 0x07],
        &[0x0F, 0x33, 0x07],
        &[0x0F, 0x39, 0x07, 0x00],
        &[0x0F, 0x3B, 0x07, 0x00],
        // conversions to another base than ten
        &[0xD4, 0x08],
        &[0xD5, 0x0B],
        // second bytes that are not in
        &[0x0F, 0x0F],
        &[0x0F, 0x21],
    ];
    for bytes in refused {
        let text = text(bytes);
        let (address, first) = (0x100000 - bytes.len(), bytes[0]);
        let line = format!("{address:05X} {first:02X}                 DB {first:02X}\n");
        assert!(text.starts_with(&line), "{text}");
    }
}

#[test]
fn brkem_is_listed() {
    assert_eq!(
        text(&[0x0F, 0xFF, 0x03]),
        "FFFFD 0FFF03             BRKEM 03
"
    );
}

#[test]
fn a_cut_last_instruction_is_data() {
    is_data(&[0x26]);
    is_data(&[0xF3, 0x26, 0xF0]);
    is_data(&[0x0F]);
    is_data(&[0xB8, 0xB8]);
    is_data(&[0x8B, 0x80]);
    // MOV word [1234h],5678h without its last byte; reading goes on after its first one
    let expected = "\
        FFFFA 90                 NOP\n\
        FFFFB C7                 DB C7\n\
        FFFFC 06                 PUSH DS1\n\
        FFFFD 3412               XOR AL,12\n\
        FFFFF 78                 DB 78\n";
    assert_eq!(text(&[0x90, 0xC7, 0x06, 0x34, 0x12, 0x78]), expected);
}

#[test]
fn the_empty_image_has_no_lines() {
    assert_eq!(list(&[]), Ok(Vec::new()));
    assert_eq!(rebuild(&[]), Ok(Vec::new()));
}

#[test]
fn an_image_over_the_limit_is_refused() {
    assert_eq!(list(&vec![0x90; LONGEST_IMAGE + 1]), Err(17));
    let text = text(&vec![0x90; LONGEST_IMAGE]);
    assert!(text.starts_with("F8000 90                 NOP\n"));
    assert!(text.ends_with("\nFFFFF 90                 NOP\n"));
    assert_eq!(text.lines().count(), LONGEST_IMAGE);
    // lines for one byte more are none that the listing prints
    let longer = format!("F7FFF 90                 NOP\n{text}");
    assert_eq!(rebuild(longer.as_bytes()), Err(16));
}

/// An image of random bytes, or of instructions that are in with a few random bytes between.
fn random_image(random: &mut Random) -> Vec<u8> {
    let length = random.below(400) as usize;
    let mut image = Vec::new();
    let only_bytes = random.one_in(4);
    while image.len() < length {
        if only_bytes || random.one_in(8) {
            image.push(random.byte());
        } else {
            let count = random.below(5);
            image.extend(prefixes(random, count));
            let opcode = random_opcode(random);
            image.extend(with_tail(opcode, random));
        }
    }
    image.truncate(length);
    image
}

#[test]
fn random_images_come_back() {
    for number in 0..3000 {
        let image = random_image(&mut Random::for_case(5, number));
        assert_eq!(rebuild(&list(&image).unwrap()), Ok(image));
    }
    let mut random = Random::for_case(6, 0);
    let longest: Vec<u8> = (0..LONGEST_IMAGE).map(|_| random.byte()).collect();
    assert_eq!(rebuild(&list(&longest).unwrap()), Ok(longest));
}

#[test]
fn lines_are_well_formed() {
    for number in 0..500 {
        let image = random_image(&mut Random::for_case(7, number));
        let mut address = 0x100000 - image.len();
        for line in text(&image).lines() {
            assert_eq!(line[..6], format!("{address:05X} "));
            let digits = line[6..25].trim_end();
            assert_eq!(&line[24..25], " ");
            assert!(!line[25..].starts_with(' ') && !line.ends_with(' '));
            address += digits.len() / 2;
        }
        assert_eq!(address, 0x100000);
    }
}

/// What is listed and then changed, one way for each refusal.
const GOOD: &str = "\
    FFFF9 B012               MOV AL,12\n\
    FFFFB 63                 DB 63\n\
    FFFFC 8A4012             MOV AL,BYTE DS0:[BW+IX+0012]\n\
    FFFFF 90                 NOP\n";

fn is_refused(lines: &str) {
    assert_eq!(rebuild(lines.as_bytes()), Err(16), "{lines}");
}

#[test]
fn changed_lines_are_refused() {
    assert!(rebuild(GOOD.as_bytes()).is_ok());
    let changes = [
        ("FFFF9 B", "FFFF8 B"),     // a digit in an address
        ("FFFFB 63", "FFFFA 63"),   // not the first one
        ("B012 ", "B013 "),         // a digit of a byte
        ("63   ", "64   "),         // a byte that is a prefix
        ("MOV AL,12", "MOV AL,13"), // in the words
        ("IX+0012", "IX+12"),       // another way to write it
        ("NOP", "XCH AW,AW"),       // another name
        ("DB 63", "DB  63"),        // a space more
        ("NOP\n", "NOP \n"),        // one at the end
        ("B012  ", "B012 "),        // a space less
        ("FFFFB", "ffffb"),         // lower case
        ("8A4012", "8a4012"),
        ("NOP", "nop"),
        ("63 ", "63\t"),
        ("MOV AL,12\n", "MOV AL,12\r\n"),
        ("MOV AL,12\n", "MOV AL,12"), // a missing LF inside
        ("B012 ", "B 12 "),           // half a byte
        ("B012 ", "+B12 "),           // a sign, which is no digit
        ("NOP\n", "NOP"),             // a missing LF at the end
        ("NOP\n", "NOP\n\n"),         // an empty line at the end
        ("FFFFB 63", "\nFFFFB 63"),   // inside
        ("FFFF9", "\nFFFF9"),         // at the start
        (
            "B012               MOV AL,12\n",
            "B0                 DB B0\nFFFFA 12                 DB 12\n",
        ),
    ];
    for (old, new) in changes {
        assert_eq!(GOOD.matches(old).count(), 1, "{old}");
        is_refused(&GOOD.replace(old, new));
    }
    is_refused("\n");
    is_refused(" ");
}

#[test]
fn lines_too_few_or_too_many_are_refused() {
    let lines: Vec<&str> = GOOD.split_inclusive('\n').collect();
    // a listing without its first lines is a shorter image's
    assert_eq!(rebuild(lines[3].as_bytes()), Ok(vec![0x90]));
    for count in 1..lines.len() {
        is_refused(&lines[..count].concat());
    }
    is_refused(&[lines[0], lines[2], lines[3]].concat());
    is_refused(&[lines[0], lines[2], lines[1], lines[3]].concat());
    is_refused(&[GOOD, lines[3]].concat());
    is_refused(&[GOOD, "00000 90                 NOP\n"].concat());
    is_refused(&[GOOD, "100000 90                NOP\n"].concat());
    is_refused(&[lines[0], GOOD].concat());
}

#[test]
fn no_other_byte_anywhere_is_taken() {
    let good = GOOD.as_bytes();
    for place in 0..good.len() {
        for byte in 0..=255 {
            let mut lines = good.to_vec();
            lines[place] = byte;
            let rebuilt = rebuild(&lines);
            if byte == good[place] {
                assert!(rebuilt.is_ok());
            } else {
                assert_eq!(rebuilt, Err(16), "{byte:02X} at {place}");
            }
        }
    }
}

#[test]
fn no_byte_can_be_left_out_or_doubled() {
    let good = GOOD.as_bytes();
    for place in 0..good.len() {
        let (before, after) = good.split_at(place);
        assert_eq!(rebuild(&[before, &after[1..]].concat()), Err(16));
        assert_eq!(rebuild(&[before, &after[..1], after].concat()), Err(16));
        if place > 0 {
            assert_eq!(rebuild(before), Err(16));
        }
    }
}

/// The program `listrom` with these words and this input.
fn program(words: &[&str], input: &[u8]) -> Output {
    let mut child = Command::new(env!("CARGO_BIN_EXE_listrom"))
        .args(words)
        .stdin(Stdio::piped())
        .stdout(Stdio::piped())
        .stderr(Stdio::piped())
        .spawn()
        .unwrap();
    // a program that does not want its input may have ended before
    let _ = child.stdin.take().unwrap().write_all(input);
    child.wait_with_output().unwrap()
}

#[test]
fn the_program_lists_and_rebuilds() {
    let image = [0xB0, 0x12, 0x63, 0x8A, 0x40, 0x12, 0x90];
    let listed = program(&["list"], &image);
    assert_eq!(listed.stdout, GOOD.as_bytes());
    assert_eq!((listed.status.code(), listed.stderr.len()), (Some(0), 0));
    let rebuilt = program(&["rebuild"], GOOD.as_bytes());
    assert_eq!(rebuilt.stdout, image);
    assert_eq!((rebuilt.status.code(), rebuilt.stderr.len()), (Some(0), 0));
    for word in ["list", "rebuild"] {
        let empty = program(&[word], &[]);
        assert_eq!((empty.status.code(), empty.stdout.len()), (Some(0), 0));
    }
}

#[test]
fn the_program_refuses_in_one_line() {
    let too_long = vec![0x90; LONGEST_IMAGE + 1];
    let cases: [(&[&str], &[u8], i32, &str); 6] = [
        (
            &["list"],
            &too_long,
            3,
            "refused with 17: the image is over 32,768 bytes",
        ),
        (
            &["rebuild"],
            b"\n",
            3,
            "refused with 16: a line is not what the listing prints there",
        ),
        (&[], &[], 2, "usage: listrom list"),
        (&["rebuilt"], &[], 2, "usage: listrom list"),
        (&["list", "list"], &[], 2, "usage: listrom list"),
        (&["list", "rom"], &[], 2, "usage: listrom list"),
    ];
    for (words, input, status, begins) in cases {
        let output = program(words, input);
        let said = String::from_utf8(output.stderr).unwrap();
        assert!(said.starts_with(&format!("listrom: {begins}")), "{said}");
        assert_eq!(said.lines().count(), 1);
        assert_eq!(
            (output.status.code(), output.stdout.len()),
            (Some(status), 0)
        );
    }
}
