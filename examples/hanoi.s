; The towers of Hanoi with three disks: each move is a line, as 1>3. LINK and UNLK make the frames.
DATA    equ     $FFF00000
POWER   equ     $FFF00020
        org     0
        dc.l    $10000,start
        org     $400
start:  pea     2.w                     ; over which peg
        pea     3.w                     ; to
        pea     1.w                     ; from
        pea     3.w                     ; how many disks
        bsr.s   move
        move.l  #1,POWER
move:   link    a6,#0
        tst.l   (8,a6)
        beq.s   done
        move.l  (16,a6),-(sp)
        move.l  (20,a6),-(sp)
        move.l  (12,a6),-(sp)
        move.l  (8,a6),-(sp)
        subq.l  #1,(sp)
        bsr.s   move                    ; all but the largest, out of its way
        lea     (16,sp),sp
        moveq   #'0',d0
        add.l   (12,a6),d0
        move.b  d0,DATA
        move.b  #'>',DATA
        moveq   #'0',d0
        add.l   (16,a6),d0
        move.b  d0,DATA
        move.b  #10,DATA
        move.l  (12,a6),-(sp)
        move.l  (16,a6),-(sp)
        move.l  (20,a6),-(sp)
        move.l  (8,a6),-(sp)
        subq.l  #1,(sp)
        bsr.s   move                    ; and onto it again
done:   unlk    a6
        rts
