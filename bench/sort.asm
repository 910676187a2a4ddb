; Sorts the entries of a meet by age, and those of one age by time, by straight insertion.
;
; Tape, port 10h, as in roms/classes: the season's year, then for each entry the year of birth, minutes, seconds and hundredths;
; FFh ends the list. All of them are bytes of two packed decimal digits.
; Display, port 60h: the sorted entries, each in two words, seconds and hundredths before age and minutes; then a byte, 1 if the list
; is in order and its sum is what it was before, else 0; then the sum of its words.
;
; Built as it stands it runs in ROM. With COPIED it copies itself into RAM and runs there; with COPIED and REWRITING it also keeps
; what it has to remember while it sorts in the operands of its own instructions.

TAPE_PORT       EQU     10h
DISPLAY_PORT    EQU     60h

END_OF_LIST     EQU     0FFh            ; no pair of digits, so no year of birth

; RAM, above the interrupt vectors
SEASON_YEAR     EQU     0400h
LIST_END        EQU     0402h
SUM             EQU     0404h
LEAST           EQU     040Ch           ; an entry of zeros before the list: no other is less, so each finds its place
LIST            EQU     0410h           ; hundredths, seconds, minutes, age: a number, its lowest digits first; 252 have room
ENTRY_BYTES     EQU     4
RAM_SEGMENT     EQU     0080h           ; where the code is copied to
STACK_TOP       EQU     1000h

ROM_SEGMENT     EQU     0FFE0h          ; the image begins here and ends at FFFFFh

                ORG     0
start:          CLR1    DIR             ; block instructions go upwards
                IF      COPIED
                MOV     AW,ROM_SEGMENT
                MOV     DS0,AW
                MOV     AW,RAM_SEGMENT
                MOV     DS1,AW
                MOV     IX,0
                MOV     IY,0
                MOV     CW,code_end
                REP MOVBK BYTE PTR [IY],BYTE PTR [IX]
                BR      RAM_SEGMENT:meet
                ENDIF

meet:           MOV     AW,0
                MOV     DS0,AW
                MOV     SS,AW
                MOV     SP,STACK_TOP
                CALL    read_list
                CALL    sum_list
                MOV     WORD PTR [SUM],AW
                CALL    sort_list
                CALL    show_list
                CALL    check_list
finished:       HALT
                BR      finished        ; an interrupt ends a halt

read_list:      MOV     AW,0
                MOV     WORD PTR [LEAST],AW
                MOV     WORD PTR [LEAST+2],AW
                IN      AL,TAPE_PORT
                MOV     [SEASON_YEAR],AL
                MOV     IY,LIST
read_entry:     IN      AL,TAPE_PORT
                CMP     AL,END_OF_LIST
                BE      all_read
                MOV     AH,AL           ; the year of birth
                MOV     AL,[SEASON_YEAR]
                SUB     AL,AH
                ADJ4S                   ; the age, as two digits
                MOV     BYTE PTR [IY+3],AL
                IN      AL,TAPE_PORT
                MOV     BYTE PTR [IY+2],AL
                IN      AL,TAPE_PORT
                MOV     BYTE PTR [IY+1],AL
                IN      AL,TAPE_PORT
                MOV     BYTE PTR [IY],AL
                ADD     IY,ENTRY_BYTES
                BR      read_entry
all_read:       MOV     WORD PTR [LIST_END],IY
                RET

sum_list:       MOV     AW,0
                MOV     IX,LIST
add_entry:      CMP     IX,WORD PTR [LIST_END]
                BE      added
                ADD     AW,WORD PTR [IX]
                ADD     AW,WORD PTR [IX+2]
                ADD     IX,ENTRY_BYTES
                BR      add_entry
added:          RET

; Each entry in turn (IY) is taken out, the greater ones before it go up by one place, and it is put in at the place (IX) that is left.
; Packed digits are ordered as the numbers they stand for.
                IF      REWRITING
sort_list:      MOV     IY,LIST
take_out:       CMP     IY,WORD PTR [LIST_END]
                BE      sorted
                MOV     AW,WORD PTR [IY]
                MOV     WORD PTR PS:[low_word+1],AW
                MOV     AW,WORD PTR [IY+2]
                MOV     WORD PTR PS:[high_word+1],AW
                MOV     WORD PTR PS:[place+1],IY
place:          MOV     IX,0            ; the operand: the place, another one at each turn
                MOV     AW,WORD PTR [IX-2]
high_word:      CMP     AW,0            ; the operand: age and minutes of the entry that was taken out
                BC      put_in
                BNE     go_up
                MOV     AW,WORD PTR [IX-4]
low_word:       CMP     AW,0            ; the operand: its seconds and hundredths
                BNH     put_in
                MOV     AW,WORD PTR [IX-2]
go_up:          MOV     WORD PTR [IX+2],AW
                MOV     AW,WORD PTR [IX-4]
                MOV     WORD PTR [IX],AW
                SUB     WORD PTR PS:[place+1],ENTRY_BYTES
                BR      place
put_in:         MOV     AW,WORD PTR PS:[low_word+1]
                MOV     WORD PTR [IX],AW
                MOV     AW,WORD PTR PS:[high_word+1]
                MOV     WORD PTR [IX+2],AW
                ADD     IY,ENTRY_BYTES
                BR      take_out
sorted:         RET
                ELSE
sort_list:      MOV     IY,LIST
take_out:       CMP     IY,WORD PTR [LIST_END]
                BE      sorted
                MOV     DW,WORD PTR [IY]        ; seconds and hundredths
                MOV     BW,WORD PTR [IY+2]      ; age and minutes
                MOV     IX,IY
look:           MOV     AW,WORD PTR [IX-2]
                CMP     AW,BW
                BC      put_in
                BNE     go_up
                MOV     AW,WORD PTR [IX-4]
                CMP     AW,DW
                BNH     put_in
                MOV     AW,WORD PTR [IX-2]
go_up:          MOV     WORD PTR [IX+2],AW
                MOV     AW,WORD PTR [IX-4]
                MOV     WORD PTR [IX],AW
                SUB     IX,ENTRY_BYTES
                BR      look
put_in:         MOV     WORD PTR [IX],DW
                MOV     WORD PTR [IX+2],BW
                ADD     IY,ENTRY_BYTES
                BR      take_out
sorted:         RET
                ENDIF

show_list:      MOV     IX,LIST
                MOV     CW,WORD PTR [LIST_END]
                SUB     CW,IX
                SHR     CW,1            ; words
                MOV     DW,DISPLAY_PORT
                REP OUTM DW,WORD PTR [IX]
                RET

check_list:     CALL    sum_list
                MOV     BL,0            ; the mark
                CMP     AW,WORD PTR [SUM]
                BNE     checked
                MOV     IX,LIST
check_entry:    CMP     IX,WORD PTR [LIST_END]
                BE      in_order
                MOV     AW,WORD PTR [IX+2]
                CMP     AW,WORD PTR [IX-2]
                BC      checked
                BNE     next_entry
                MOV     AW,WORD PTR [IX]
                CMP     AW,WORD PTR [IX-4]
                BC      checked
next_entry:     ADD     IX,ENTRY_BYTES
                BR      check_entry
in_order:       MOV     BL,1
checked:        MOV     AL,BL
                OUT     DISPLAY_PORT,AL
                MOV     AW,WORD PTR [SUM]
                OUT     DISPLAY_PORT,AW
                RET
code_end:

                ORG     01F0h           ; reset starts here, at FFFF0h
                BR      ROM_SEGMENT:start
