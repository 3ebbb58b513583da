; ping-pong.asm: two guests that take turns for ever.
;
; Guest 0 runs guest 1, which yields at once. Guest 0's R0 is then the number of Yield; it adds these up and stores the
; sum, so that a turn that went wrong would be seen.

WORKER = 0
HELPER = 1

machine guests 2 pages 10
guest WORKER tx 2 rx 3 start worker
guest HELPER tx 4 rx 5 start helper
page 0 owner WORKER
page 1 owner HELPER
page 6 owner WORKER
page 7 owner WORKER

at @0
worker: movi r7 turn
        movi r5 @6                  ; where it stores
turn:   movi r1 HELPER
        call Run
        add  r4 r0
        str  r4 r5
        br   r7

at @1
helper: movi r7 again
again:  call Yield
        br   r7

budget 200
