; eleven-hulls.asm: photos of hulls, each filed under its own hull. Run this one first.
;
; A dive crew takes a photo of a ship's hull and shares the page with the photo store, which files it under that crew's
; hull. On an older machine a crew could take its page back while the store still had it, and the handle was given out
; again: one photo was filed under eleven hulls. Here it is tried once more, with two crews; the store's code would be the
; same for eleven.
;
;   guest 0, recorder   gives the turns; it never touches a photo
;   guest 1, crew1      has the photo of hull 1, and is impatient
;   guest 2, crew2      has the photo of hull 2
;   guest 3, store      files photos in its ledger, one line for each hull
;
; Look at these lines:
;   step 51   crew1 wants its page back while store has it: DENIED, and nothing changes
;   step 63   crew2 shares its photo: handle 1, not 0, because crew1's handle is still in use
;   step 85   store is not disturbed by either: it files f0700001, the photo of hull 1, and relinquishes
;   step 125  now crew1's Reclaim works,
;   step 129  and its page is as before: it can share it again, and gets handle 0, which is free once more
;   the last  store has compared its ledger with what must stand there. It halts if every photo stands under its own
;             hull, and runs into a fault if not. So `halted` says that all is well

; The guests. The number of a crew is the number of its hull.
RECORDER = 0
CREW1 = 1
CREW2 = 2
STORE = 3
HULLS = 2                           ; hulls 1 and 2

; The pages.
RECORDER_CODE = 0
CREW1_CODE = 1
CREW2_CODE = 2
STORE_CODE = 3
PHOTO1 = 4                          ; crew1's photo
PHOTO2 = 5                          ; crew2's photo
LEDGER = 6                          ; store's: word 0 counts the photos, word h is the line of hull h
RECORDER_TX = 7
RECORDER_RX = 8
CREW1_TX = 9
CREW1_RX = 10
CREW2_TX = 11
CREW2_RX = 12
STORE_TX = 13
STORE_RX = 14

PICTURE = 0xf070_0000               ; the first word of the photo of hull h is PICTURE+h

; A crew's message to the store: the descriptor of its Share, which stands in its TX page anyway, and behind it the
; handle.
DESCRIPTOR_WORDS = 3
BASE_AT = 2                         ; word 2 is the address of the photo page
HANDLE_AT = 3                       ; word 3 is the handle
MESSAGE_WORDS = 4

machine guests 4 pages 15
guest RECORDER tx RECORDER_TX rx RECORDER_RX start recorder
guest CREW1    tx CREW1_TX    rx CREW1_RX    start crew1
guest CREW2    tx CREW2_TX    rx CREW2_RX    start crew2
guest STORE    tx STORE_TX    rx STORE_RX    start store
page RECORDER_CODE owner RECORDER
page CREW1_CODE    owner CREW1
page CREW2_CODE    owner CREW2
page STORE_CODE    owner STORE
page PHOTO1        owner CREW1
page PHOTO2        owner CREW2
page LEDGER        owner STORE

; ---- The recorder: whose turn it is.

at @RECORDER_CODE
recorder:
        movi r1 CREW1
        call Run                    ; crew1 shares its photo and sends the handle
        mov  r1 r2                  ; behind a Send R2 says who has mail: the store
        call Run                    ; store retrieves photo 1, and is not done with it
        movi r1 CREW1
        call Run                    ; crew1 wants its page back already
        movi r1 CREW2
        call Run                    ; crew2 shares its photo and sends the handle
        mov  r1 r2                  ; the store again
        call Run                    ; store files photo 1 and gives it back, then retrieves photo 2
        movi r1 CREW1
        call Run                    ; crew1 takes its page back
        movi r1 STORE
        call Run                    ; store files photo 2 and gives it back
        movi r1 CREW2
        call Run                    ; crew2 takes its page back
        movi r1 STORE
        call Run                    ; store checks its ledger and ends the run

; ---- Crew 1.

at @CREW1_CODE
crew1:  movi r1 DESCRIPTOR_WORDS
        call Share                  ; R2 = the handle: 0, the lowest that is free
        mov  r5 r2                  ; keep it: R2 will not stay
        set  r3 @CREW1_TX+HANDLE_AT
        str  r5 r3                  ; TX now holds the message
        movi r1 STORE
        movi r2 MESSAGE_WORDS
        call Send                   ; recorder goes on

        mov  r1 r5                  ; the next turn: store has photo 1 in its hands
        call Reclaim                ; DENIED, as long as store has not relinquished; and nothing changes
        movi r2 0                   ; only so that the lines below do not show the old error
        call Yield

        mov  r1 r5                  ; the next turn: store has relinquished
        call Reclaim                ; success: the page is crew1's alone, and handle 0 is free
        movi r1 DESCRIPTOR_WORDS    ; is it really as before? A Share finds out: it would be DENIED if crew1
        call Share                  ; were not the owner or not the only one to reach it. It gets handle 0 again
        call Yield

at @CREW1_TX
        descriptor share STORE PHOTO1

at @PHOTO1
        word PICTURE+CREW1

; ---- Crew 2: the same, with patience.

at @CREW2_CODE
crew2:  movi r1 DESCRIPTOR_WORDS
        call Share                  ; R2 = 1: handle 0 is in use, and is not given out a second time
        mov  r5 r2
        set  r3 @CREW2_TX+HANDLE_AT
        str  r5 r3
        movi r1 STORE
        movi r2 MESSAGE_WORDS
        call Send                   ; store has taken the first message, so there is room for this one

        mov  r1 r5                  ; the next turn: store has relinquished this one too
        call Reclaim
        call Yield

at @CREW2_TX
        descriptor share STORE PHOTO2

at @PHOTO2
        word PICTURE+CREW2

; ---- The store: one round of this loop for each photo.

at @STORE_CODE
store:  call Wait                   ; a message: R0 = Send, R1 = the sender, R2 = its length
        set  r3 Send
        cmp  r0 r3
        set  r7 store
        bne  r7                     ; no message yet: ask again at the next turn
        mov  r4 r1                  ; r4 = the sender, which is the hull to file under
        set  r3 @STORE_RX+BASE_AT
        ldr  r6 r3                  ; r6 = the address of the photo
        addi r3 HANDLE_AT-BASE_AT
        ldr  r5 r3                  ; r5 = the handle. All is read now: the next message may overwrite the RX page
        mov  r1 r5
        call Retrieve               ; from here on store can reach the photo
        call Yield                  ; filing takes its time: the others have their turns while store has the photo

        ldr  r2 r6                  ; a word of the photo; in R2, so that the next line shows it
        set  r3 @LEDGER
        add  r3 r4                  ; the line of the sender's hull
        str  r2 r3                  ; filed
        mov  r1 r5
        call Relinquish             ; from here on the crew can have its page back

        set  r3 @LEDGER             ; word 0 of the ledger:
        ldr  r4 r3
        addi r4 1                   ; one photo more
        str  r4 r3
        movi r5 HULLS
        cmp  r4 r5
        set  r7 store
        bne  r7                     ; not all of them yet
        call Yield                  ; all are filed: the last crew takes its page back

; The ledger is checked line by line: r4 is the hull.
        movi r4 0
line:   addi r4 1                   ; the next hull
        set  r3 @LEDGER
        add  r3 r4
        ldr  r2 r3                  ; what stands in its line
        set  r5 PICTURE
        add  r5 r4                  ; what must stand there
        cmp  r2 r5
        set  r7 wrong
        bne  r7
        movi r5 HULLS
        cmp  r4 r5
        set  r7 line
        bne  r7                     ; there are more lines
        halt                        ; every photo stands under its own hull

wrong:  word 0                      ; no instruction: whoever comes here ends the run with a fault

budget 1000

; What bench prints, and why:
;   4 0 8400006d 8400006d 00000000     recorder runs crew1
;   8 1 84000073 84000061 00000000     crew1 shares photo 1: handle 0
;   17 1 8400006e 84000061 00000004    crew1 sends 4 words; recorder goes on
;   21 0 8400006d 8400006d 00000003    recorder runs guest 3, as its R2 says
;   24 3 8400006b 8400006e 00000004    store takes crew1's message of 4 words
;   40 3 84000074 84000061 00000004    store retrieves photo 1
;   43 3 8400006c 84000061 00000004    store is still filing
;   47 0 8400006d 8400006d 00000003    recorder runs crew1
;   51 1 84000077 84000060 fffffffa    crew1 reclaims: DENIED, store has the photo
;   55 1 8400006c 84000061 00000000    crew1 yields
;   59 0 8400006d 8400006d 00000003    recorder runs crew2
;   63 2 84000073 84000061 00000001    crew2 shares photo 2: handle 1
;   72 2 8400006e 84000061 00000004    crew2 sends 4 words; recorder goes on
;   76 0 8400006d 8400006d 00000003    recorder runs guest 3 again
;   85 3 84000076 84000061 f0700001    store has filed photo 1 under hull 1, and relinquishes
;   98 3 8400006b 8400006e 00000004    store takes crew2's message
;   114 3 84000074 84000061 00000004   store retrieves photo 2
;   117 3 8400006c 84000061 00000004   store is still filing
;   121 0 8400006d 8400006d 00000003   recorder runs crew1
;   125 1 84000077 84000061 00000000   crew1 reclaims: success
;   129 1 84000073 84000061 00000000   crew1 shares the same page again: handle 0, free since the Reclaim
;   132 1 8400006c 84000061 00000000   crew1 yields
;   136 0 8400006d 8400006d 00000003   recorder runs store
;   145 3 84000076 84000061 f0700002   store has filed photo 2 under hull 2, and relinquishes
;   158 3 8400006c 84000061 f0700002   all are filed
;   162 0 8400006d 8400006d 00000003   recorder runs crew2
;   166 2 84000077 84000061 00000004   crew2 reclaims: success
;   169 2 8400006c 84000061 00000004   crew2 yields
;   173 0 8400006d 8400006d 00000003   recorder runs store
;   end 209 halted                     store has found every photo under its own hull
