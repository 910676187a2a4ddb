//! How to read a reading: what the sentences take for granted.

pub const TITLE: &str = "How to read it";

pub const GUIDE: [(&str, &str); 8] = [
    (
        "Lines",
        "Each line is one instruction of the program, as the lister prints it: its address, its bytes, its words. The sentence \
         beside it says what it does. The program does one line after the other, unless a sentence says where it goes on.",
    ),
    (
        "Numbers",
        "A number with an h is written in hex, where each digit counts sixteen times the next and A to F stand for ten to fifteen. \
         The same number as people write it follows in brackets.",
    ),
    (
        "Decimal digits",
        "A byte may hold two decimal digits, one in each half: 28h is then read as 28, not as the number in brackets.",
    ),
    (
        "Registers",
        "AW, BW, CW, DW, IX, IY, BP and SP are the processor's own stores, for a word of two bytes each. AL and AH are the lower \
         and the upper byte of AW; BL and BH, CL and CH, DL and DH are those of BW, CW and DW.",
    ),
    (
        "Memory",
        "DS0:0400h is the place with that number in memory, counted from where the segment register DS0 points; DS0:IX is the place \
         to which IX points. The segment registers are PS (program), SS (stack), DS0 and DS1 (data).",
    ),
    (
        "Flags",
        "Calculations leave marks. CY is 1 after a carry or a borrow, Z after a result of 0 or a comparison of two that are equal, S \
         after a negative result. A later line may ask for them.",
    ),
    (
        "Routines",
        "A routine is a part of the program that is called from elsewhere and goes back there at its end. The stack keeps the way back.",
    ),
    (
        "Loops",
        "A bar at the margin runs along lines that are done again and again, from where the loop begins to where it goes back.",
    ),
];
