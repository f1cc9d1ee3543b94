; Sorts the letters of a text in memory, sends the text, and switches off.
DATA    equ     $FFF00000
POWER   equ     $FFF00020
        org     0
        dc.l    $10000,start
        org     $400
start:  lea     end-1,a1
pass:   lea     text,a0
        moveq   #0,d1                   ; whether anything moved
step:   move.b  (a0)+,d0
        cmp.b   (a0),d0
        bls.s   keep
        move.b  (a0),(-1,a0)
        move.b  d0,(a0)
        moveq   #1,d1
keep:   cmpa.l  a1,a0
        bcs.s   step
        tst.b   d1
        bne.s   pass
        lea     text,a0
        moveq   #end-text-1,d1
send:   move.b  (a0)+,DATA
        dbf     d1,send
        move.b  #10,DATA
        move.l  #1,POWER
        org     $500
text:   dc.b    "thequickbrownfoxjumpsoverthelazydog"
end:
