| Writes to pages that are not there yet, or that must be copied first, in each way that leaves the kernel another rest
| to do. The answer is how many of six values were read as they were written.
        .globl  pieces

        .equ    PAGE, 4096
        .equ    ALL, 6

        .macro  check right, at         | D0 counts the right ones
        cmp.l   \at, \right
        bne.s   1f
        addq.l  #1, %d0
1:
        .endm

        .text
pieces:                                 | (value)
        movem.l %d2/%a2, -(%sp)
        move.l  12(%sp), %d1
        lea     area, %a0
        moveq   #0, %d0

        move.l  %d1, PAGE-1(%a0)        | a byte, a word and a byte, on two pages
        check   %d1, PAGE-1(%a0)

        move.l  %d1, 3*PAGE-2(%a0)      | two words, on two pages
        check   %d1, 3*PAGE-2(%a0)

        bfins   %d1, 5*PAGE-2(%a0){4:32} | of five bytes, in three pieces
        bfextu  5*PAGE-2(%a0){4:32}, %d2
        check   %d1, %d2

        lea     line, %a1
        move.l  %d1, 12(%a1)
        lea     6*PAGE(%a0), %a2
        move16  (%a1)+, (%a2)+          | a line
        check   %d1, 6*PAGE+12(%a0)

        clr.b   8*PAGE-4(%a0)
        tas     8*PAGE(%a0)             | locked: its read is refused, since it will write
        move.l  8*PAGE(%a0), %d2
        cas.l   %d2, %d1, 8*PAGE(%a0)   | locked
        check   %d1, 8*PAGE(%a0)

        lea     10*PAGE-8(%a0), %a1
        move.l  %d1, %d2
        movem.l %d0-%d2/%a0-%a2, (%a1)  | two transfers on one page, four on the next
        check   %d2, 10*PAGE(%a0)

        movem.l (%sp)+, %d2/%a2
        rts

        .data
        .balign 16
line:   .ascii  "a line of 16 ..."

        .bss
        .balign PAGE
area:   .space  11*PAGE

        .section .note.GNU-stack, ""
