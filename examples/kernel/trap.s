| The way into the kernel and out of it. The context that trap() is given stands on the kernel stack of the process
| that was interrupted; the one that it gives back may stand on another's, and then that process goes on.
        .globl  trap_entry, trap_leave

        .text
trap_entry:
        ori     #0x0700, %sr            | TRAP and access errors leave the mask: no interrupt from here on
        movem.l %d0-%d7/%a0-%a6, -(%sp)
        move.l  %usp, %a0
        move.l  %a0, -(%sp)
        move.l  %sp, -(%sp)
        jsr     trap
trap_leave:
        movea.l %a0, %sp                | where C returns a pointer
        movea.l (%sp)+, %a0
        move.l  %a0, %usp
        movem.l (%sp)+, %d0-%d7/%a0-%a6
        rte                             | of a frame of format 0, or 7 after an access error

        .section .note.GNU-stack, ""
