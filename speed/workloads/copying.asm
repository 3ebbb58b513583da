; copying.asm: a page copied for ever.
;
; Guest 0 copies page 6 to page 7, word by word, and then again. Before each turn the first word changes.

WORKER = 0
HELPER = 1

machine guests 2 pages 10
guest WORKER tx 2 rx 3 start worker
guest HELPER tx 4 rx 5 start @1
page 0 owner WORKER
page 1 owner HELPER
page 6 owner WORKER
page 7 owner WORKER

at @0
worker: movi r5 @7                  ; the end of page 6, and where page 7 begins
        movi r6 turn
        movi r7 next
turn:   movi r1 @6
        mov  r2 r5
        addi r4 1
        str  r4 r1                  ; the number of the turn
next:   ldr  r3 r1
        str  r3 r2
        addi r1 1
        addi r2 1
        cmp  r1 r5
        bne  r7
        br   r6

budget 200
