| What stands around main: the vectors, the stack, what happens when main returns, and what C cannot say. For GNU as.
        .equ    ACCESS_ERROR, 8         | where vector 2 stands
        .equ    DATA, 0xFFF00000
        .equ    POWER, 0xFFF00020
        .equ    BLOCKS, 0xFFF00030
        .globl  start, disk_size, interrupts_off, interrupts_on, wait_for_interrupt

        .section .vectors, "a"
        .long   stack, start            | the first stack pointer and program counter
        .rept   26
        .long   unexpected
        .endr
        .long   terminal_interrupt      | level 4
        .rept   227
        .long   unexpected
        .endr

        .text
start:  lea     bss_start, %a0          | variables without a value begin as 0
        bra.s   2f
1:      clr.l   (%a0)+
2:      cmpa.l  #bss_end, %a0
        bcs.s   1b
        jsr     main
off:    move.l  #1, POWER
unexpected:
        move.b  #'!', DATA
        bra.s   off

| How many blocks the disk has. Where none is attached the register does not answer: the access error goes on at 1,
| which drops its frame.
disk_size:
        move.l  ACCESS_ERROR, %d1
        move.l  #1f, ACCESS_ERROR
        movea.l %sp, %a0
        move.l  BLOCKS, %d0
        bra.s   2f
1:      movea.l %a0, %sp
        moveq   #0, %d0
2:      move.l  %d1, ACCESS_ERROR
        rts

interrupts_off:
        move.w  #0x2700, %sr
        rts

interrupts_on:
        move.w  #0x2000, %sr
        rts

| STOP lowers the mask itself, so an interrupt that is asked for already ends it at once.
wait_for_interrupt:
        stop    #0x2000
        rts

        .section .note.GNU-stack, ""
