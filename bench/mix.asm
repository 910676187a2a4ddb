; A round of work of each kind, over and over: registers, memory, stack and calls, branches, products and quotients, blocks,
; decimal strings. It never halts; whoever measures it gives it a number of steps.
;
; Tape, port 10h: 32 bytes to begin with. Display, port 60h: a byte for each round.

TAPE_PORT       EQU     10h
DISPLAY_PORT    EQU     60h

; RAM, above the interrupt vectors
WORDS           EQU     0400h           ; 16 words, at first from the tape
COPY            EQU     0440h           ; 32 bytes
BLANK           EQU     0480h           ; 16 words
FIRST_DECIMAL   EQU     04C0h           ; 8 digits
SECOND_DECIMAL  EQU     04D0h           ; 8 digits
STACK_TOP       EQU     1000h

ROM_SEGMENT     EQU     0FFE0h          ; the image begins here and ends at FFFFFh

                ORG     0
start:          MOV     AW,0
                MOV     DS0,AW
                MOV     DS1,AW
                MOV     SS,AW
                MOV     SP,STACK_TOP
                CLR1    DIR             ; block instructions go upwards
                MOV     IY,WORDS
                MOV     DW,TAPE_PORT
                MOV     CW,32
                REP INM BYTE PTR [IY],DW

; registers
round:          MOV     CW,20
registers:      ADD     AW,BW
                XOR     BW,AW
                SHL     AW,1
                INC     DW
                SUB     BP,DW
                ROR     BW,1
                ADD     AW,1234h
                DBNZ    registers

; memory
                MOV     IX,WORDS
                MOV     CW,16
memory:         MOV     BW,WORD PTR [IX]
                ADD     BW,AW
                MOV     WORD PTR [IX],BW
                XOR     AW,BW
                ADD     IX,2
                DBNZ    memory

; stack and calls
                MOV     CW,8
calls:          PUSH    AW
                PUSH    BW
                PUSH    CW
                CALL    frame
                POP     CW
                POP     BW
                POP     AW
                DBNZ    calls

; branches
                MOV     CW,16
branches:       MOV     BW,AW
                ADD     AW,BW
                ADD     AW,0101h
                BC      carried
                INC     DW
carried:        DBNZ    branches

; products and quotients
                MOV     CW,8
products:       MOV     AL,CL
                MOV     BL,7
                MULU    BL
                DIVU    BL
                MOV     DL,AL
                MOV     AH,DL
                DBNZ    products

; blocks, a step for each element
                MOV     IX,WORDS
                MOV     IY,COPY
                MOV     CW,32
                REP MOVBK BYTE PTR [IY],BYTE PTR [IX]
                MOV     IY,BLANK
                MOV     CW,16
                REP STM WORD PTR [IY]
                MOV     IX,WORDS
                MOV     IY,COPY
                MOV     CW,16
                REP CMPBK BYTE PTR [IX],BYTE PTR [IY]

; decimal
                MOV     BL,8
decimal:        MOV     IX,FIRST_DECIMAL
                MOV     IY,SECOND_DECIMAL
                MOV     CL,8
                ADD4S
                DEC     BW
                AND     BL,0Fh
                MOV     AL,BL
                ADJ4A
                MOV     [FIRST_DECIMAL],AL
                CMP     BL,0
                BNE     decimal

                MOV     AL,DL
                OUT     DISPLAY_PORT,AL
                BR      ROM_SEGMENT:round

frame:          PUSH    BP
                MOV     BP,SP
                INC     AW
                POP     BP
                RET

                ORG     01F0h           ; reset starts here, at FFFF0h
                BR      ROM_SEGMENT:start
