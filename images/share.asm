; share.asm: two guests use one page, and give it back in the right order.
;
; Guest 1, crew, owns the page slate. It writes a word on it and shares it with guest 0, boss. Boss retrieves it,
; reads crew's word and writes an answer beside it, which crew reads: while a page is shared and retrieved, both can
; reach it. Then boss relinquishes it and crew reclaims it.
;
; Look at the last column: boss shows crew's word, cafe, and crew shows boss's, beef. Neither wrote what it shows.

BOSS = 0
CREW = 1

BOSS_CODE = 0
CREW_CODE = 1
BOSS_TX = 2
BOSS_RX = 3
CREW_TX = 4
CREW_RX = 5
SLATE = 6                           ; the page that both write on

CREWS_WORD = 0xcafe                 ; goes to word 0 of the slate
BOSS_WORD = 0xbeef                  ; goes to word 1 of the slate

DESCRIPTOR_WORDS = 3                ; the length of a descriptor with one page
HANDLE = 0                          ; the first sending gets the lowest handle; message.asm shows how to be told

machine guests 2 pages 7
guest BOSS tx BOSS_TX rx BOSS_RX start boss
guest CREW tx CREW_TX rx CREW_RX start crew
page BOSS_CODE owner BOSS
page CREW_CODE owner CREW
page SLATE     owner CREW

at @BOSS_CODE
boss:   movi r1 CREW
        call Run                    ; crew writes its word, shares the slate and yields
        movi r1 HANDLE
        call Retrieve               ; from here on boss can reach the slate
        set  r3 @SLATE              ; the address of its word 0
        ldr  r2 r3                  ; crew's word
        call Yield                  ; shows it
        movi r4 BOSS_WORD
        addi r3 1                   ; word 1
        str  r4 r3                  ; a shared page is there to be written too
        movi r1 CREW
        call Run                    ; crew reads the answer
        movi r1 HANDLE
        call Relinquish             ; from here on boss cannot reach the slate: a ldr would be a fault
        movi r1 CREW
        call Run                    ; crew takes the slate back
        halt

at @CREW_CODE
crew:   set  r3 @SLATE
        movi r4 CREWS_WORD
        str  r4 r3                  ; word 0
        movi r1 DESCRIPTOR_WORDS
        call Share                  ; crew stays owner and can still reach the slate; R2 = the handle
        mov  r5 r2                  ; keep the handle: R2 will not stay
        call Yield
        addi r3 1                   ; word 1, which boss has written by now
        ldr  r2 r3
        call Yield                  ; shows it
        mov  r1 r5                  ; the handle
        call Reclaim                ; works because boss has relinquished: the slate is crew's alone again
        call Yield

at @CREW_TX                         ; where Share looks for what to share, and with whom
        descriptor share BOSS SLATE

budget 100

; What bench prints, and why:
;   4 0 8400006d 8400006d 00000000    boss runs crew
;   12 1 84000073 84000061 00000000   crew's Share: success; R2 is the handle, 0
;   16 1 8400006c 84000061 00000000   crew yields
;   20 0 84000074 84000061 00000000   boss retrieves
;   26 0 8400006c 84000061 0000cafe   boss shows crew's word
;   33 0 8400006d 8400006d 0000cafe   boss has written its own and runs crew
;   38 1 8400006c 84000061 0000beef   crew shows boss's word
;   42 0 84000076 84000061 0000cafe   boss relinquishes
;   46 0 8400006d 8400006d 0000cafe   boss runs crew
;   50 1 84000077 84000061 0000beef   crew reclaims; the handle is free from here on
;   53 1 8400006c 84000061 0000beef   crew yields
;   end 54 halted
