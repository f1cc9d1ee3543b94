| Where a program begins, and how it calls the kernel. What the image begins with tells the kernel where its parts are.
        .globl  start, call

        .section .header, "a"
        .long   start, data_begin, data_end, variables_end

        .text
start:  lea     -12(%sp), %sp           | call reads three values, also where it is given fewer
        jsr     main
        moveq   #0, %d0                 | CALL_EXIT
        trap    #0

call:                                   | (number, up to three values)
        movem.l %d2-%d3, -(%sp)
        movem.l 12(%sp), %d0-%d3
        trap    #0
        movem.l (%sp)+, %d2-%d3
        rts

        .section .note.GNU-stack, ""
