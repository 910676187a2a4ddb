; Files the riders of a season into five-year classes.
;
; Tape, port 10h: the season's year, then for each rider the year of birth, minutes, seconds and hundredths; FFh ends the list.
; Display, port 60h: for each rider class, age, whether a century was crossed, minutes, seconds and hundredths.
; All of them are bytes of two packed decimal digits.

TAPE_PORT       EQU     10h
DISPLAY_PORT    EQU     60h

END_OF_LIST     EQU     0FFh            ; no pair of digits, so no year of birth
YOUNGEST        EQU     18h             ; packed digits: whoever is younger has no class
NO_CLASS        EQU     00h

; RAM, above the interrupt vectors. From RESULT on the bytes lie as they are displayed.
SEASON_YEAR     EQU     0400h
BIRTH_YEAR      EQU     0401h
RESULT          EQU     0402h
CLASS           EQU     0402h
AGE             EQU     0403h
CENTURY_CROSSED EQU     0404h
TIME            EQU     0405h
TIME_BYTES      EQU     3
RESULT_BYTES    EQU     6
STACK_TOP       EQU     1000h

ROM_SEGMENT     EQU     0FFF0h          ; the image begins here and ends at FFFFFh

                ORG     0
start:          MOV     AW,0
                MOV     DS0,AW
                MOV     DS1,AW
                MOV     SS,AW
                MOV     SP,STACK_TOP
                CLR1    DIR             ; block instructions go upwards
                IN      AL,TAPE_PORT
                MOV     [SEASON_YEAR],AL

next_rider:     IN      AL,TAPE_PORT
                CMP     AL,END_OF_LIST
                BE      finished
                MOV     [BIRTH_YEAR],AL
                CALL    read_time
                CALL    take_age
                CALL    find_class
                CALL    show_result
                BR      next_rider

finished:       HALT
                BR      finished        ; an interrupt ends a halt

read_time:      MOV     IY,TIME
                MOV     DW,TAPE_PORT
                MOV     CW,TIME_BYTES
                REP INM BYTE PTR [IY],DW
                RET

take_age:       MOV     AL,[SEASON_YEAR]
                MOV     [AGE],AL        ; SUB4S leaves the age where the season's year was
                MOV     IX,BIRTH_YEAR
                MOV     IY,AGE
                MOV     CL,2            ; digits
                SUB4S                   ; CY: born in the century before the season's
                MOV     AL,0            ; MOV keeps CY
                ADDC    AL,0
                MOV     [CENTURY_CROSSED],AL
                RET

find_class:     MOV     AL,[AGE]
                CMP     AL,YOUNGEST     ; packed digits are ordered as the numbers they stand for
                BC      no_class
                MOV     AH,AL
                AND     AL,0F0h         ; the class of the decade's first five years
                AND     AH,0Fh
                CMP     AH,5
                BC      filed
                OR      AL,5
filed:          MOV     [CLASS],AL
                RET
no_class:       MOV     AL,NO_CLASS
                BR      filed

show_result:    MOV     IX,RESULT
                MOV     DW,DISPLAY_PORT
                MOV     CW,RESULT_BYTES
                REP OUTM DW,BYTE PTR [IX]
                RET

                ORG     0F0h            ; FFFF0h, where reset begins
                BR      ROM_SEGMENT:start
