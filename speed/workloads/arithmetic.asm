; arithmetic.asm: arithmetic in a loop for ever.
;
; Guest 0 computes with its registers. Each thousandth turn it stores a result, so that a wrong one would be seen.

WORKER = 0
HELPER = 1

machine guests 2 pages 10
guest WORKER tx 2 rx 3 start worker
guest HELPER tx 4 rx 5 start @1
page 0 owner WORKER
page 1 owner HELPER
page 6 owner WORKER
page 7 owner WORKER

at @0
worker: movi r7 turn
        movi r5 1000                ; turns until the next store
        movi r0 @6                  ; where it stores
turn:   movi r1 0x1234
        movt r1 0x5678
        add  r2 r1
        mov  r3 r2
        sub  r3 r4
        sub  r4 r3
        addi r4 7
        addi r6 1
        cmp  r6 r5
        bne  r7
        str  r4 r0
        movi r6 0
        br   r7

budget 200
