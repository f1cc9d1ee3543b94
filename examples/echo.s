; Reads lines from the terminal, by interrupts of level 4, and prints each in capitals. The processor is stopped
; while nothing is typed. An empty line, or a full stop alone, ends. examples/echo.txt types for it.
DATA    equ     $FFF00000
CTRL    equ     $FFF00002
POWER   equ     $FFF00020
LF      equ     10
        org     0
        dc.l    $10000,start            ; the first stack pointer and program counter
        org     $70
        dc.l    typed                   ; vector 28, the interrupt of level 4
        org     $400
start:  move.l  #line,place
        move.b  #1,CTRL                 ; a byte that has arrived now asks for the interrupt
wait:   stop    #$2000                  ; sleeps until one has come; the interrupts are let in here alone
        ori     #$700,sr
        tst.b   CTRL
        bne.s   wait                    ; the line is not whole

        lea     line,a0
        cmpi.b  #LF,(a0)
        beq.s   off
        cmpi.b  #'.',(a0)
        bne.s   next
        cmpi.b  #LF,(1,a0)
        beq.s   off
next:   move.b  (a0)+,d0
        cmpi.b  #'a',d0
        bcs.s   send
        cmpi.b  #'z',d0
        bhi.s   send
        subi.b  #'a'-'A',d0
send:   move.b  d0,DATA
        cmpi.b  #LF,d0
        bne.s   next
        bra.s   start
off:    move.l  #1,POWER

typed:  movem.l d0/a0,-(sp)             ; takes the byte that has arrived
        movea.l place,a0
        move.b  DATA,d0
        move.b  d0,(a0)
        cmpa.l  #last,a0
        beq.s   full                    ; of a longer line the last place has the last byte
        addq.l  #1,place
full:   cmpi.b  #LF,d0
        bne.s   done
        clr.b   CTRL                    ; a whole line: the terminal's queue keeps the bytes behind it
done:   movem.l (sp)+,d0/a0
        rte

place:  ds.l    1                       ; where the next byte goes
line:   ds.b    79
last:   ds.b    1
