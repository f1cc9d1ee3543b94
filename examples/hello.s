; A is sent to the console, and the machine is switched off.
        org     0
        dc.l    $10000,start            ; the first stack pointer and program counter
        org     $400
start:  moveq   #'A',d0
        move.b  d0,$FFF00000
        move.l  #1,$FFF00020
