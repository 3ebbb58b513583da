; mixed.asm: a bit of everything but calls of the machine, for ever.
;
; Guest 0 loads a word, has a little function change it, stores it and compares it with a counter.

WORKER = 0
HELPER = 1

machine guests 2 pages 10
guest WORKER tx 2 rx 3 start worker
guest HELPER tx 4 rx 5 start @1
page 0 owner WORKER
page 1 owner HELPER
page 6 owner WORKER
page 7 owner WORKER

at @0
worker: movi r7 turn
        movi r6 change
        movi r1 @6                  ; where the word is
turn:   ldr  r2 r1
        addi r2 3
        movi r5 back                ; where the function goes back to
        br   r6
back:   str  r2 r1
        addi r4 1
        cmp  r2 r4
        bne  r7
        br   r7                     ; once in a while they are equal
change: add  r2 r2                  ; r2 = 2 * r2 - r4
        sub  r2 r4
        br   r5

budget 200
