| What stands around main: the vectors, the stack, and what happens when main returns. For GNU as.
        .equ    DATA, 0xFFF00000
        .equ    POWER, 0xFFF00020
        .globl  start

        .section .vectors, "a"
        .long   stack, start            | the first stack pointer and program counter
        .rept   254
        .long   unexpected              | every exception and interrupt
        .endr

        .text
start:  lea     bss_start, %a0          | variables without a value begin as 0
        bra.s   2f
1:      clr.l   (%a0)+
2:      cmpa.l  #bss_end, %a0
        bcs.s   1b
        jsr     main
off:    move.l  #1, POWER
unexpected:
        move.b  #'!', DATA
        bra.s   off

        .section .note.GNU-stack, ""
