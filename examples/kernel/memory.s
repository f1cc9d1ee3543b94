| What C cannot say: moves of whole lines, and accesses to the user's space, in which the kernel itself does not run.
| An access here may be refused as the user's own would be. Then the handler of access errors repairs the page and the
| instruction is done after all, or it ends the process, and the call never returns.
        .globl  copy_page, clear_page, copy_from_user, copy_to_user
        .globl  store_user_byte, store_user_word, store_user_long

        .text
copy_page:                              | (to, from): frames of memory
        movea.l 4(%sp), %a1
        movea.l 8(%sp), %a0
        moveq   #64-1, %d0
1:      move16  (%a0)+, (%a1)+
        move16  (%a0)+, (%a1)+
        move16  (%a0)+, (%a1)+
        move16  (%a0)+, (%a1)+
        dbra    %d0, 1b
        rts

clear_page:                             | (at)
        movea.l 4(%sp), %a1
        moveq   #64-1, %d0
1:      move16  zeros, (%a1)+
        move16  zeros, (%a1)+
        move16  zeros, (%a1)+
        move16  zeros, (%a1)+
        dbra    %d0, 1b
        rts

copy_from_user:                         | (to, from, length)
        movea.l 4(%sp), %a1
        movea.l 8(%sp), %a0
        move.l  12(%sp), %d1
        bra.s   2f
1:      moves.b (%a0)+, %d0
        move.b  %d0, (%a1)+
2:      subq.l  #1, %d1
        bcc.s   1b
        rts

copy_to_user:                           | (to, from, length)
        movea.l 4(%sp), %a1
        movea.l 8(%sp), %a0
        move.l  12(%sp), %d1
        bra.s   2f
1:      move.b  (%a0)+, %d0
        moves.b %d0, (%a1)+
2:      subq.l  #1, %d1
        bcc.s   1b
        rts

store_user_byte:                        | (at, value)
        movea.l 4(%sp), %a0
        move.l  8(%sp), %d0
        moves.b %d0, (%a0)
        rts

store_user_word:
        movea.l 4(%sp), %a0
        move.l  8(%sp), %d0
        moves.w %d0, (%a0)
        rts

store_user_long:
        movea.l 4(%sp), %a0
        move.l  8(%sp), %d0
        moves.l %d0, (%a0)
        rts

        .section .rodata
        .balign 16
zeros:  .long   0, 0, 0, 0

        .section .note.GNU-stack, ""
