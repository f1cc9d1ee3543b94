; A fill of memory: from $1000 on each long becomes its own address. It ends with the steps that it is given.
        org     0
        dc.l    $10000,start            ; the first stack pointer and program counter
        org     $400
start:  lea     $1000.w,a0
next:   move.l  a0,(a0)+
        bra.s   next
