; Translation and page faults. Tables are built that map each page to itself, but page 6, which is elsewhere, and
; pages 7 and 8, which are nowhere. Then they are touched: an access error is entered, its handler gives the page a
; frame, and the instruction is done after all.
DATA    equ     $FFF00000
POWER   equ     $FFF00020
ROOT    equ     $2000                   ; the tables: 512 bytes,
POINTER equ     $2200                   ; 512 bytes,
PAGE    equ     $2400                   ; and 256 bytes
VALID   equ     1                       ; a page descriptor's type
TABLE   equ     2                       ; a table descriptor's type
        org     0
        dc.l    $10000,start            ; the first stack pointer and program counter
        dc.l    fault                   ; vector 2, access error
        org     $400
start:  move.l  #POINTER+TABLE,ROOT     ; the rest of the tables is 0, invalid
        move.l  #PAGE+TABLE,POINTER
        lea     PAGE,a0
        moveq   #VALID,d0
        moveq   #16-1,d1
build:  move.l  d0,(a0)+                ; page N is frame N
        addi.l  #$1000,d0
        dbf     d1,build
        move.l  #$9000+VALID,PAGE+24    ; page 6 is frame 9
        clr.l   PAGE+28                 ; pages 7 and 8 are invalid
        clr.l   PAGE+32
        moveq   #5,d0
        movec   d0,dfc                  ; PFLUSH speaks of supervisor data
        move.l  #$FF00C040,d0
        movec   d0,dtt0                 ; the devices, and all from $FF000000 on, are not translated
        movea.l #ROOT,a0
        movec   a0,urp
        movec   a0,srp

        lea     $6000,a0
        bsr     print                   ; "frame 6"
        pflusha
        move.l  #$8000,d0
        movec   d0,tc                   ; translation begins
        lea     $6000,a0
        bsr     print                   ; "frame 9", at the same address
        lea     $7000,a0
        bsr     print                   ; "frame A", after the fault of a read
        move.l  #$776F726B,$7FFF        ; "work", over the end of page 7: the fault of a write
        lea     $7FFF,a0
        bsr     print                   ; "work"
        moveq   #0,d0
        movec   d0,tc                   ; translation ends
        lea     $AFFF,a0
        bsr     print                   ; "work" again: the bytes are in frames A and B
off:    move.l  #1,POWER

; Sends the text at A0, which ends with a 0; print ends the line too.
print:  bsr.s   put
        move.b  #10,DATA
        rts
put:    move.b  (a0)+,d0
        beq.s   sent
        move.b  d0,DATA
        bra.s   put
sent:   rts

; The access error's handler. The frame lies behind the registers that it saves.
FRAME   equ     20
SSW     equ     FRAME+$0C               ; what was refused
WB3S    equ     FRAME+$0E
WB2S    equ     FRAME+$10
WB1S    equ     FRAME+$12
FA      equ     FRAME+$14               ; where
WB3A    equ     FRAME+$18
WB3D    equ     FRAME+$1C
WB2A    equ     FRAME+$20
WB2D    equ     FRAME+$24
WB1A    equ     FRAME+$28
WB1D    equ     FRAME+$2C
fault:  movem.l d0-d2/a0-a1,-(sp)
        btst    #2,(SSW,sp)             ; bit 10 of the word: translation refused it
        beq.s   off                     ; a place where nothing is: no page can help
        lea     read,a0
        btst    #0,(SSW,sp)             ; bit 8: it was a read
        bne.s   tell
        lea     write,a0
tell:   bsr.s   put
        move.l  (FA,sp),d0
        bsr     hex

        move.l  (FA,sp),d0              ; the page that was missed gets the next frame
        moveq   #12,d1
        lsr.l   d1,d0
        lea     PAGE,a0
        move.l  spare,(0,a0,d0.l*4)
        addi.l  #$1000,spare
        movea.l (FA,sp),a0
        pflush  (a0)                    ; what the processor may have kept of the page is old

; Where a read was refused, RTE goes back to the instruction. Where a write was, the instruction is done but for the
; one to three pieces that stand in the frame; they are written here, and RTE goes to the next instruction.
        move.w  (WB1S,sp),d0
        movea.l (WB1A,sp),a0
        move.l  (WB1D,sp),d1
        bfextu  d0{25:2},d2             ; the size: 0 a long, 1 a byte, 2 a word
        move.b  (bytes,pc,d2.w),d2
        add.l   a0,d2
        lsl.l   #3,d2
        rol.l   d2,d1                   ; the first piece stands where it would in memory; now in the low bytes
        bsr.s   finish
        move.w  (WB2S,sp),d0
        movea.l (WB2A,sp),a0
        move.l  (WB2D,sp),d1
        bsr.s   finish
        move.w  (WB3S,sp),d0
        movea.l (WB3A,sp),a0
        move.l  (WB3D,sp),d1
        bsr.s   finish
        movem.l (sp)+,d0-d2/a0-a1
        rte
bytes:  dc.b    4,1,2,0

; Writes the piece with the status in D0, the address in A0 and the value in D1, as the supervisor's data.
finish: btst    #7,d0
        beq.s   none                    ; the frame has no such piece
        btst    #6,d0
        bne.s   word
        btst    #5,d0
        bne.s   byte
        move.l  d1,(a0)
none:   rts
word:   move.w  d1,(a0)
        rts
byte:   move.b  d1,(a0)
        rts

; Sends the long in D0 in hexadecimal digits, and ends the line.
hex:    moveq   #8-1,d1
digit:  rol.l   #4,d0
        moveq   #15,d2
        and.l   d0,d2
        move.b  (digits,pc,d2.w),DATA
        dbf     d1,digit
        move.b  #10,DATA
        rts
digits: dc.b    "0123456789ABCDEF"

spare:  dc.l    $A000+VALID             ; the descriptor of the next frame to give
read:   dc.b    "read refused at ",0
write:  dc.b    "write refused at ",0
        org     $6000
        dc.b    "frame 6",0
        org     $9000
        dc.b    "frame 9",0
        org     $A000
        dc.b    "frame A",0
