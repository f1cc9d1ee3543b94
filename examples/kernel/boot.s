| Where the machine begins: the vectors, and what has to be done before C can run. For GNU as.
        .globl  start, idle

        .section .vectors, "a"
        .long   boot_stack, start       | the first stack pointer and program counter
        .rept   254
        .long   trap_entry              | every exception and interrupt; its frame says which
        .endr

        .text
start:  lea     bss_begin, %a0          | variables without a value begin as 0
        bra.s   2f
1:      clr.l   (%a0)+
2:      cmpa.l  #bss_end, %a0
        bcs.s   1b
        moveq   #1, %d0                 | MOVES and PFLUSH speak of the user's data
        movec   %d0, %sfc
        movec   %d0, %dfc
        jsr     kernel_main             | gives the context of the first process
        jmp     trap_leave

| What runs while no process can. STOP lowers the mask, so the next interrupt ends it.
idle:   stop    #0x2000
        bra.s   idle

        .bss
        .balign 4
        .space  4096
boot_stack:

        .section .note.GNU-stack, ""
