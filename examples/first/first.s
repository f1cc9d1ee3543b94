| A first kernel: a program in user mode with system calls, pages that are given when they are touched, the timer, the
| terminal and the disk. docs/KERNEL.md explains it. For GNU as.
        .equ    DATA, 0xFFF00000        | the terminal
        .equ    CONTROL, 0xFFF00002
        .equ    PERIOD, 0xFFF00010      | the timer
        .equ    ACKNOWLEDGE, 0xFFF00018
        .equ    POWER, 0xFFF00020
        .equ    BLOCK, 0xFFF00034       | the disk
        .equ    COMMAND, 0xFFF00038
        .equ    BUFFER, 0xFFF0003C
        .equ    END, 0                  | the system calls
        .equ    PRINT, 1
        .equ    LINE, 2
        .equ    SLEEP, 3
        .equ    DROP, 4
        .globl  start

        .section .vectors, "a"
        .long   interrupt_stack, start  | at 0 and 4: the first ISP and the first PC
        .long   access                  | vector 2, access error
        .rept   25
        .long   other                   | 3 to 27
        .endr
        .long   terminal, other         | 28 and 29: the interrupts of level 4 and 5
        .long   timer, other            | 30 and 31: of level 6 and 7
        .long   call                    | 32, TRAP #0
        .rept   223
        .long   other                   | 33 to 255
        .endr

        .section .tables, "aw"
root:   .long   0x00002202              | addresses below 2000000: the pointer table
        .zero   512-4
        .long   0x00002402              | addresses below 40000: the page table
        .zero   512-4
        .long   0x00000085              | page 0: the vectors and the kernel; S and W
        .long   0x00001081              | page 1: its variables; S
        .long   0x00002081              | page 2: these tables; S
        .long   0x00003005              | page 3: the program; W
        .long   0x00004001              | page 4: its stack
given:  .long   0, 0, 0                 | pages 5 to 7: invalid until they are touched
        .zero   6*4                     | pages 8 to 13: invalid; the frames 8 to 13 are given out
        .long   0x0000E081              | page 14: the master stack; S
        .long   0x0000F081              | page 15: the interrupt stack; S
        .zero   256-16*4

        .text
start:  lea     master_stack, %a0
        movec   %a0, %msp
        move.w  #0x3700, %sr            | S and M: from here on A7 is MSP
        moveq   #1, %d0
        movec   %d0, %sfc               | MOVES and PFLUSH speak of the user's data
        movec   %d0, %dfc
        bsr     begin_disk
        move.l  #0xFF00A040, %d0
        movec   %d0, %dtt0              | FF000000 and above, for the supervisor: not translated
        lea     root, %a0
        movec   %a0, %urp
        movec   %a0, %srp
        pflusha
        move.l  #0x8000, %d0
        movec   %d0, %tc                | E, and P clear: pages of 4 KiB

        move.b  #1, CONTROL             | a received byte asks for level 4
        move.l  #1000, PERIOD           | every 1000 steps the timer asks for level 6
        lea     user_stack, %a0
        move.l  %a0, %usp
        clr.w   -(%sp)                  | a frame of format 0: the format word,
        pea     program                 | PC,
        move.w  #0x1000, -(%sp)         | and SR: M, but neither S nor a mask
        rte

| Counts the starts in the first long of block 0.
begin_disk:
        clr.l   BLOCK
        move.l  #1, COMMAND             | block 0 comes into the buffer
        move.l  BUFFER, %d0             | its first long
        addq.l  #1, %d0
        move.l  #1, COMMAND             | back to the first long
        move.l  %d0, BUFFER
        move.l  #2, COMMAND             | the buffer goes into block 0
        tst.l   COMMAND                 | not 0 where the disk refused
        bne     off
        lea     starts, %a0
        bra     tell

| The access error. The page gets a frame of memory, and what the instruction has left to write is written.
access: movem.l %d0-%d2/%a0-%a3, -(%sp)
        lea     28+0x14(%sp), %a0       | at FA, and behind WB1S
        lea     28+0x30(%sp), %a1       | behind WB1A and WB1D
        bsr     give
        moveq   #3-1, %d2
1:      subq.l  #8, %a1
        move.w  -(%a0), %d0
        tst.b   %d0
        bpl.s   4f                      | V is clear: there is no such piece
        bfextu  %d0{#25:#2}, %d0        | SIZE
        move.b  bytes(%pc,%d0.w), %d0
        movea.l (%a1), %a2              | where it goes
        lea     8(%a1), %a3
        suba.l  %d0, %a3                | WB2D and WB3D have it at their end,
        cmpi.w  #2, %d2
        bne.s   3f
        moveq   #3, %d1                 | WB1D where the address puts it in a long
        and.l   (%a1), %d1
        lea     4(%a1,%d1.l), %a3
3:      move.b  (%a3)+, %d1
        moves.b %d1, (%a2)+             | where this is refused, access is entered anew
        subq.l  #1, %d0
        bne.s   3b
4:      dbra    %d2, 1b
        movem.l (%sp)+, %d0-%d2/%a0-%a3
        rte
bytes:  .byte   4, 1, 2, 16

| Gives page 5, 6 or 7 the next frame of memory. Another page, and what is no page's fault, is the end. A0 is at FA.
give:   addq.l  #1, errors
        btst    #2, -8(%a0)             | ATC of SSW: translation refused it
        beq     refused
        bfextu  (%a0){#0:#20}, %d0      | the page
        subq.l  #5, %d0
        cmpi.l  #2, %d0
        bhi     refused
        move.l  next_frame, %d1
        cmpi.l  #0xE001, %d1            | behind the last frame
        beq     refused
        move.l  %d1, (given,%d0.l*4)
        addi.l  #0x1000, next_frame
        rts

refused:
        move.l  (%a0), %d0
        lea     refusal, %a0
        bsr     tell
        bra     off

| Any other exception. The program goes on at its A5; one of the kernel's own is the end.
other:  movem.l %d0-%d2/%a0, -(%sp)
        moveq   #0, %d0
        move.w  22(%sp), %d0            | format and offset
        lea     frame_word, %a0
        bsr     tell
        btst    #5, 16(%sp)             | S of the SR that was saved
        bne     off
        move.l  %a5, 18(%sp)            | PC
        movem.l (%sp)+, %d0-%d2/%a0
        rte

| The interrupts. A7 is ISP.
timer:  move.w  6(%sp), tick_frame
        addq.l  #1, ticks
        clr.l   ACKNOWLEDGE             | else RTE leads back here
        rte

terminal:
        movem.l %d0/%a0, -(%sp)
        movea.l next_byte, %a0
        move.b  DATA, %d0               | where more bytes wait it is entered again
        move.b  %d0, (%a0)+
        cmpa.l  #typed+64, %a0
        beq.s   1f                      | full: the last place takes what comes
        move.l  %a0, next_byte
1:      cmpi.b  #'\n', %d0
        bne.s   2f
        clr.b   CONTROL                 | what follows the line waits in the queue
2:      movem.l (%sp)+, %d0/%a0
        rte

| The system calls: TRAP #0 with the number in D0, and a value in D1 or A0.
call:   ori.w   #0x0700, %sr            | no interrupt but in STOP
        movem.l %d1-%d2/%a0-%a1, -(%sp)
        cmpi.l  #DROP, %d0
        bhi.s   1f
        movea.l (calls,%d0.l*4), %a1
        jsr     (%a1)
1:      movem.l (%sp)+, %d1-%d2/%a0-%a1
        rte
calls:  .long   end, print, line, sleep, drop

print:  moves.b (%a0)+, %d0             | the text at A0
        tst.b   %d0
        beq.s   1f
        move.b  %d0, DATA
        bra.s   print
1:      rts

line:   btst    #0, CONTROL             | the line that is typed goes to A0
        beq.s   1f
        bsr.s   wait
        bra.s   line
1:      lea     typed, %a1
        move.l  %a1, next_byte
2:      move.b  (%a1)+, %d0
        moves.b %d0, (%a0)+
        cmpi.b  #'\n', %d0
        bne.s   2b
        move.b  #1, CONTROL
        rts

sleep:  add.l   ticks, %d1              | for D1 ticks
1:      cmp.l   ticks, %d1
        beq.s   2f
        bsr.s   wait
        bra.s   1b
2:      rts

wait:   stop    #0x3000                 | S and M: an interrupt that was masked comes now
        ori.w   #0x0700, %sr
        rts

drop:   move.l  %a0, %d0                | page 5, 6 or 7, in which A0 is, is taken away
        moveq   #12, %d1
        lsr.l   %d1, %d0
        subq.l  #5, %d0
        cmpi.l  #2, %d0
        bhi.s   1f
        clr.l   (given,%d0.l*4)
        pflush  (%a0)
1:      rts

end:    lea     access_errors, %a0
        move.l  errors, %d0
        bsr.s   tell
        lea     last_tick, %a0
        moveq   #0, %d0
        move.w  tick_frame, %d0
        bsr.s   tell
off:    move.l  #1, POWER

| Sends the text at A0, D0 in hexadecimal digits, and the end of the line.
tell:   move.b  (%a0)+, DATA
        tst.b   (%a0)
        bne.s   tell
        moveq   #8-1, %d1
1:      rol.l   #4, %d0
        moveq   #15, %d2
        and.l   %d0, %d2
        move.b  digits(%pc,%d2.w), DATA
        dbra    %d1, 1b
        move.b  #'\n', DATA
        rts

digits: .ascii  "0123456789ABCDEF"
starts: .asciz  "starts "
refusal:
        .asciz  "refused "
frame_word:
        .asciz  "frame "
access_errors:
        .asciz  "access errors "
last_tick:
        .asciz  "the last tick's frame "

        .data
next_frame:
        .long   0x00008001              | the descriptor of the next frame to give; none is given twice
errors: .long   0
ticks:  .long   0
next_byte:
        .long   typed                   | where the next byte goes that is typed
tick_frame:
        .word   0
typed:  .zero   64

        .section .program, "ax"
        .macro  system number, place
        .ifnb   \place
        lea     \place, %a0
        .endif
        moveq   #\number, %d0
        trap    #0
        .endm
program:
        system  PRINT, hello
        lea     1f, %a5
        divu.w  #0, %d1                 | vector 5
1:      lea     1f, %a5
        move.w  %sr, %d1                | vector 8
1:      lea     1f, %a5
        fnop                            | vector 11

1:      move.l  #0x776F726B, 0x5FFF     | "work", over the end of page 5
        system  PRINT, 0x5FFF
        system  PRINT, newline
        system  DROP, 0x6000
        system  PRINT, 0x5FFF           | "w": page 6 has another frame, with zeros
        system  PRINT, newline
        movem.l words, %d1-%d4
        movem.l %d1-%d4, 0x6FF8         | two longs on page 6, two on page 7
        system  PRINT, 0x6FF8

        moveq   #3, %d1
        system  SLEEP
        system  PRINT, ready
        system  LINE, 0x7800
        system  PRINT, typed_was
        system  PRINT, 0x7800
        system  END

hello:  .asciz  "a program in user mode\n"
newline:
        .asciz  "\n"
ready:  .asciz  "three ticks\n"
typed_was:
        .asciz  "typed: "
words:  .ascii  "MOVEM goes on\n\0\0"

        .section .note.GNU-stack, ""
