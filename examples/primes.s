; The primes below 100, a line each, by trial division; then the machine switches off.
DATA    equ     $FFF00000
POWER   equ     $FFF00020
        org     0
        dc.l    $10000,start            ; the first stack pointer and program counter
        org     $400
start:  moveq   #2,d2                   ; the candidate
next:   moveq   #2,d3                   ; a divisor
try:    move.w  d3,d0
        mulu.w  d3,d0
        cmp.l   d2,d0
        bhi.s   prime                   ; no divisor up to the square root
        move.l  d2,d0
        divu.w  d3,d0
        swap    d0                      ; the remainder
        tst.w   d0
        beq.s   more
        addq.w  #1,d3
        bra.s   try
prime:  move.l  d2,d0
        bsr.s   print
        move.b  #10,DATA
more:   addq.l  #1,d2
        cmpi.w  #100,d2
        bcs.s   next
        move.l  #1,POWER
print:  divu.w  #10,d0                  ; the number in D0, in decimal
        move.l  d0,-(sp)
        andi.l  #$FFFF,d0
        beq.s   digit
        bsr.s   print
digit:  move.w  (sp),d0
        addi.b  #'0',d0
        move.b  d0,DATA
        addq.l  #4,sp
        rts
