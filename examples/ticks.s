; Exceptions and the timer. A program in user mode prints by one system call and sleeps by another. While it sleeps
; the processor is stopped, and the timer's interrupt sends a full stop and wakes it. At last the program tries what
; only the supervisor may do, and the exception that this raises ends the run.
DATA    equ     $FFF00000
PERIOD  equ     $FFF00010
ACK     equ     $FFF00018
POWER   equ     $FFF00020
        org     0
        dc.l    $10000,start            ; the first stack pointer and program counter
        org     $20
        dc.l    denied                  ; vector 8, privilege violation
        org     $78
        dc.l    tick                    ; vector 30, the interrupt of level 6
        org     $80
        dc.l    print,sleep             ; vectors 32 and 33, TRAP #0 and TRAP #1
        org     $400
start:  movea.l #$8000,a0
        move    a0,usp                  ; the stack of the program in user mode
        move.l  #1000,PERIOD            ; from here on the timer asks every 1000 steps
        clr.w   -(sp)                   ; the frame by which RTE goes to the program: format 0,
        pea     user                    ; its address,
        clr.w   -(sp)                   ; and its SR: user mode, no interrupt masked
        rte

user:   lea     hello,a0
        trap    #0
        moveq   #5-1,d7
next:   trap    #1
        dbf     d7,next
        lea     bye,a0
        trap    #0
        stop    #$2700                  ; not in user mode

print:  movem.l d0/a0,-(sp)             ; TRAP #0 sends the text at A0, which ends with a 0
send:   move.b  (a0)+,d0
        beq.s   sent
        move.b  d0,DATA
        bra.s   send
sent:   movem.l (sp)+,d0/a0
        rte

sleep:  stop    #$2000                  ; TRAP #1 waits until an interrupt has been served
        rte

tick:   move.b  #'.',DATA
        clr.l   ACK                     ; the timer asks no more, until its next period ends
        rte

denied: lea     bad,a0
        trap    #0                      ; the supervisor too may call
        move.l  #1,POWER

hello:  dc.b    "asleep for five ticks: ",0
bye:    dc.b    " awake",10,0
bad:    dc.b    "a privileged instruction in user mode",10,0
