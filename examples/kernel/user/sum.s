| The sum of the numbers from 1 on, by as many calls of a routine that saves all registers that a routine may have to
| save. Its stack has many pages, and most MOVEMs that meet a new one are refused in the middle.
        .globl  sum

        .text
sum:                                    | (number)
        move.l  4(%sp), %d0
up_to:  tst.l   %d0                     | D0 becomes the sum of the numbers up to it
        beq.s   1f
        movem.l %d2-%d7/%a2-%a6, -(%sp)
        move.l  %d0, %d7
        subq.l  #1, %d0
        bsr.s   up_to
        add.l   %d7, %d0
        movem.l (%sp)+, %d2-%d7/%a2-%a6
1:      rts

        .section .note.GNU-stack, ""
