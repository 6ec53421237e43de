; A small dispatcher for one lift panel, written for this repository as an example.
;
; Keys:   port B, pins 2-0   the high octal digit of the level that is called
;         port C, pins 2-0   the low octal digit
;         PORTA.0            the call key: its rising edge takes the digits
; Panel:  two seven-segment digits and two lamps, below and above the ground stop (dispatcher.wiring)
; Chime:  on sound channel 1, one stroke for a level above the last one, two for one below it
; Level:  the digits stand in $020 and $021 (dispatcher.level)

IE      EQU $000        ; interrupt enable flags, bit 3 external
IRQ     EQU $001        ; interrupt request flags
LCD     EQU $007        ; bit 2: display on
PORTB   EQU $009
PORTC   EQU $00A
PAM     EQU $00C        ; bit 2: PORTA.1 puts out the sound
TBR     EQU $00E        ; table branch register
INX     EQU $00F        ; the cell that the pointer names
DPL     EQU $010        ; the pointer: DPH x 128 + DPM x 16 + DPL
DPM     EQU $011
DPH     EQU $012
EDGES   EQU $013        ; bit 0: the external interrupt takes the rising edge
DUTY    EQU $015        ; 3: 1/4 duty
C1_LOW  EQU $371        ; the tone of sound channel 1: bits 3-0, then 6-4
C1_HIGH EQU $372
VOLUME  EQU $377        ; bits 3-2: the volume, bit 0: channel 1 on

LEVEL_HIGH EQU $020
LEVEL_LOW  EQU $021
SCRATCH    EQU $022
LAST_HIGH  EQU $023     ; the level before the call
LAST_LOW   EQU $024
WAIT_LOW   EQU $025     ; what is left of a wait
WAIT_MID   EQU $026
WAIT_HIGH  EQU $027

DIGITS_DPH EQU 6        ; the digits' display cells are $300-$303, and $300 is 6 x 128
LAMPS      EQU $304     ; bit 0: below ground, bit 1: above ground

GROUND_HIGH EQU 0       ; the ground stop has code 2, as dispatcher.level says
GROUND_LOW  EQU 2

        ORG $000
        JMP start
        JMP called      ; external interrupt: the call key
        RTNI            ; Timer0, base timer and port interrupts are never enabled
        RTNI
        RTNI

; The desk's demonstration stops whenever PC comes to this address, so it stays where it is.
        ORG $010
asleep: HALT
        JMP asleep

start:  LDI DUTY, 3
        LDI LCD, 4
        LDI EDGES, 5
        LDI LEVEL_HIGH, GROUND_HIGH
        LDI LEVEL_LOW, GROUND_LOW
        CALL show
        LDI PAM, 4
        LDI SCRATCH, $E                 ; the tone $6E: N 25, E5 by a sound clock of 32,768 Hz
        STA C1_LOW                      ; LDI also loads AC; itself it reaches no cell above $07F
        LDI SCRATCH, $6
        STA C1_HIGH
        LDI IE, 8
        JMP asleep

; A call: the keyed digits become the level.
called: ANDIM IRQ, 7
        LDA LEVEL_HIGH
        STA LAST_HIGH
        LDA LEVEL_LOW
        STA LAST_LOW
        LDA PORTB
        STA SCRATCH
        ANDIM SCRATCH, 7
        STA LEVEL_HIGH
        LDA PORTC
        STA SCRATCH
        ANDIM SCRATCH, 7
        STA LEVEL_LOW
        CALL show
        CALL chime
        LDI IE, 8
        RTNI

; Shows both digits and the lamps.
show:   LDI DPL, 0
        LDI DPM, 0
        LDI DPH, DIGITS_DPH
        LDA LEVEL_HIGH
        CALL digit
        LDA LEVEL_LOW
        CALL digit
        SBI LEVEL_LOW, GROUND_LOW       ; CY 0 is a borrow
        LDI SCRATCH, GROUND_HIGH
        SBC LEVEL_HIGH
        BNC below
        SBI LEVEL_LOW, GROUND_LOW
        BNZ above
        SBI LEVEL_HIGH, GROUND_HIGH
        BNZ above
        LDI SCRATCH, 0
        JMP light
below:  LDI SCRATCH, 1
        JMP light
above:  LDI SCRATCH, 2
light:  STA LAMPS
        RTNW 0, 0

; Shows the digit in AC at the pointer, which moves on by two cells: a b c d, then e f g, from bit 0 up.
digit:  STA SCRATCH
        LDI TBR, 0
        LDA SCRATCH
        CALL shape
        STA INX
        ADIM DPL, 1
        LDA TBR
        STA INX
        ADIM DPL, 1
        RTNW 0, 0

; Strikes once where the level is above the last one, twice where it is below, and not where it is the same.
chime:  LDA LAST_LOW
        SUB LEVEL_LOW                   ; the level less the last one; CY 0 is a borrow
        LDA LAST_HIGH
        SBC LEVEL_HIGH
        BNC down
        LDA LAST_LOW
        SUB LEVEL_LOW
        BNZ stroke
        LDA LAST_HIGH
        SUB LEVEL_HIGH
        BNZ stroke
        RTNW 0, 0
down:   CALL stroke
        CALL wait
stroke: LDI SCRATCH, 13                 ; on, at full volume
        STA VOLUME
        CALL wait
        LDI SCRATCH, 0
        STA VOLUME
        RTNW 0, 0

; 1,096 cycles, 0.134 s by an oscillator of 32,768 Hz: longer than any tone's period, so that no stroke runs into the
; next.
wait:   LDI WAIT_LOW, 0
        LDI WAIT_MID, 0
        LDI WAIT_HIGH, 2
again:  SBIM WAIT_LOW, 1
        BNZ again
        SBIM WAIT_MID, 1
        BNZ again
        SBIM WAIT_HIGH, 1
        BNZ again
        RTNW 0, 0

; The shapes, looked up by TBR 0 and the digit in AC: RTNW puts e f g into TBR and a b c d into AC.
        ORG $100
        RTNW 3, 15      ; 0
        RTNW 0, 6       ; 1
        RTNW 5, 11      ; 2
        RTNW 4, 15      ; 3
        RTNW 6, 6       ; 4
        RTNW 6, 13      ; 5
        RTNW 7, 13      ; 6
        RTNW 0, 7       ; 7
        ORG $1FF
shape:  TJMP
