; Sorts the riders of a meet of two runs: 8080 code, which a native start enters by BRKEM.
;
; Tape, port 10h: for each rider the number, then seconds and hundredths of the first run and of the second; FFh ends the list.
; Display, port 60h: for each rider, the fastest first, place, number, seconds and hundredths of both runs together, and of the time behind
; the first; then how many rode. All of them are bytes of two packed decimal digits.

TAPE_PORT       EQU     10h
DISPLAY_PORT    EQU     60h

END_OF_LIST     EQU     0FFh            ; no pair of digits, so no number

; Interrupt vectors, by number and by place.
SORTER          EQU     40h
SORTER_PC       EQU     0100h
SORTER_PS       EQU     0102h
DISPLAY         EQU     41h
DISPLAY_PC      EQU     0104h
DISPLAY_PS      EQU     0106h

; Data of both modes, at DS0. From RESULT on the bytes lie as they are displayed.
DATA_SEGMENT    EQU     0040h
RESULT          EQU     0000h
PLACE           EQU     0000h
NUMBER          EQU     0001h
SECONDS         EQU     0002h
HUNDREDTHS      EQU     0003h
SECONDS_BEHIND  EQU     0004h
HUNDREDTHS_BEHIND EQU   0005h
RESULT_BYTES    EQU     6
LIST            EQU     0010h           ; number, seconds and hundredths of each rider
FIRST_HUNDREDTHS EQU    0012h           ; of the first in the list
RIDER_BYTES     EQU     3

; The stack of the 8080 mode is at DS0:BP, the native one at SS:SP; SS:CARD_STACK is no memory.
CARD_STACK      EQU     0800h
STACK_SEGMENT   EQU     00C0h
STACK_TOP       EQU     0400h

ROM_SEGMENT     EQU     0FFE0h          ; the image begins here and ends at FFFFFh

                ORG     0
start:          MOV     AW,0
                MOV     DS0,AW
                MOV     AW,sorter
                MOV     WORD PTR [SORTER_PC],AW
                MOV     AW,display
                MOV     WORD PTR [DISPLAY_PC],AW
                MOV     AW,ROM_SEGMENT
                MOV     WORD PTR [SORTER_PS],AW
                MOV     WORD PTR [DISPLAY_PS],AW
                MOV     AW,DATA_SEGMENT
                MOV     DS0,AW
                MOV     AW,STACK_SEGMENT
                MOV     SS,AW
                MOV     SP,STACK_TOP
                CLR1    DIR             ; block instructions go upwards
                BRKEM   SORTER
                MOV     AL,CH           ; RETEM comes back here; CH is B: how many rode
                OUT     DISPLAY_PORT,AL
finished:       HALT
                BR      finished        ; an interrupt ends a halt

; CALLN comes here, in native mode. CW and DW are B, C, D and E; IX is none of the 8080's.
display:        PUSH    CW
                PUSH    DW
                MOV     IX,RESULT
                MOV     DW,DISPLAY_PORT
                MOV     CW,RESULT_BYTES
                REP OUTM DW,BYTE PTR [IX]
                POP     DW
                POP     CW
                RETI                    ; into the 8080 mode again

                MODE    8080
sorter:         LXI     SP,CARD_STACK
                LXI     H,LIST
                MVI     C,0             ; how many riders
next_rider:     IN      TAPE_PORT
                CPI     END_OF_LIST
                JZ      all_read
                MOV     M,A
                INX     H
                CALL    read_runs
                INR     C
                JMP     next_rider
all_read:       CALL    sort
                CALL    show
                RETEM

; both runs together, at HL
read_runs:      IN      TAPE_PORT
                MOV     D,A             ; seconds of the first run
                IN      TAPE_PORT
                MOV     E,A             ; and hundredths
                IN      TAPE_PORT
                MOV     B,A             ; seconds of the second
                IN      TAPE_PORT
                ADD     E
                DAA                     ; CY: a whole second
                MOV     E,A
                MOV     A,B
                ADC     D
                DAA
                MOV     M,A
                INX     H
                MOV     M,E
                INX     H
                RET

; neighbours change places until a pass finds all in order; who is as fast as the next stays before him
sort:           MOV     A,C
                CPI     2
                RC                      ; nobody, or one alone
pass:           LXI     H,LIST
                MOV     D,C
                DCR     D               ; so many have a next one
                MVI     B,0             ; nothing exchanged as yet
neighbours:     CALL    compare
                CC      exchange
                INX     H
                INX     H
                INX     H
                DCR     D
                JNZ     neighbours
                MOV     A,B
                ORA     A
                JNZ     pass
                RET

; CY: the rider behind the one at HL was faster
compare:        PUSH    H
                PUSH    D
                INX     H
                MOV     D,M
                INX     H
                MOV     E,M
                INX     H
                INX     H
                MOV     A,M
                CMP     D               ; packed digits are ordered as the numbers they stand for
                JNZ     compared
                INX     H
                MOV     A,M
                CMP     E
compared:       POP     D               ; POP keeps the flags
                POP     H
                RET

; the rider at HL and the next; B becomes 1
exchange:       PUSH    H
                PUSH    D
                LXI     D,RIDER_BYTES
                XCHG
                DAD     D               ; HL the next rider, DE this one
                MVI     B,RIDER_BYTES
next_byte:      LDAX    D
                PUSH    PSW
                MOV     A,M
                STAX    D
                POP     PSW
                MOV     M,A
                INX     D
                INX     H
                DCR     B
                JNZ     next_byte
                INR     B
                POP     D
                POP     H
                RET

show:           MVI     B,0             ; the place
                MOV     A,C
                ORA     A
                RZ                      ; nobody rode
                LXI     H,LIST
                MOV     D,C
next_place:     MOV     A,B
                ADI     1
                DAA
                MOV     B,A
                STA     PLACE
                MOV     A,M
                STA     NUMBER
                INX     H
                MOV     A,M
                STA     SECONDS
                INX     H
                MOV     A,M
                STA     HUNDREDTHS
                INX     H
                CALL    take_behind
                CALLN   DISPLAY
                DCR     D
                JNZ     next_place
                RET

; a decimal difference, as the 8080 takes it: 99 and 1 less what is taken off, then a sum and DAA; CY 1: nothing was borrowed
take_behind:    PUSH    H
                LXI     H,FIRST_HUNDREDTHS
                STC
                MVI     A,99h
                ACI     0
                SUB     M
                MOV     E,A
                LDA     HUNDREDTHS
                ADD     E
                DAA
                STA     HUNDREDTHS_BEHIND
                MVI     A,99h
                ACI     0               ; a borrow leaves 99
                DCX     H
                SUB     M
                MOV     E,A
                LDA     SECONDS
                ADD     E
                DAA
                STA     SECONDS_BEHIND
                POP     H
                RET

                MODE    NATIVE
                ORG     1F0h            ; FFFF0h, where reset begins
                BR      ROM_SEGMENT:start
