; page-calls.asm: a page that goes to the other guest and comes back, for ever.
;
; Guest 0 shares page 6 with guest 1 and runs it; guest 1 retrieves the page, relinquishes it and yields; guest 0 reclaims
; it. It adds up what Reclaim leaves in R0 and stores the sum, so that an error would be seen.

WORKER = 0
HELPER = 1

machine guests 2 pages 10
guest WORKER tx 2 rx 3 start worker
guest HELPER tx 4 rx 5 start helper
page 0 owner WORKER
page 1 owner HELPER
page 6 owner WORKER
page 7 owner WORKER

HANDLE = 0                          ; the lowest one that is free

at @0
worker: movi r1 3                   ; the words of the descriptor
        call Share
        movi r1 HELPER
        call Run
        movi r1 HANDLE
        call Reclaim
        add  r4 r0
        movi r5 @7                  ; where it stores
        str  r4 r5
        br   r7                     ; r7 is 0, and so is worker

at @1
helper: movi r7 again
again:  movi r1 HANDLE
        call Retrieve
        call Relinquish
        call Yield
        br   r7

at @2                               ; guest 0's TX page
        descriptor share HELPER 6

budget 200
