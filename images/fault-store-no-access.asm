; fault-store-no-access.asm: a guest stores to a page that it has given back.
;
; Guest 1, crew, shares a page with guest 0, boss. Boss retrieves it, stores a word, and relinquishes the page. Then
; it stores once more: this time it is a page like any other of crew's.
;
; Look at boss's last line: between Retrieve and Relinquish the same store worked, and the word could be read back.

BOSS = 0
CREW = 1

BOSS_CODE = 0
CREW_CODE = 1
BOSS_TX = 2
BOSS_RX = 3
CREW_TX = 4
CREW_RX = 5
SHARED = 6

STORED_WORD = 0xcafe
DESCRIPTOR_WORDS = 3
HANDLE = 0                          ; nothing else is sent, so it is the lowest one

machine guests 2 pages 7
guest BOSS tx BOSS_TX rx BOSS_RX start boss
guest CREW tx CREW_TX rx CREW_RX start crew
page BOSS_CODE owner BOSS
page CREW_CODE owner CREW
page SHARED    owner CREW

at @BOSS_CODE
boss:   movi r1 CREW
        call Run                    ; crew shares
        movi r1 HANDLE
        call Retrieve
        set  r3 @SHARED
        movi r4 STORED_WORD
        str  r4 r3                  ; allowed
        ldr  r2 r3                  ; for the next line to show
        movi r1 HANDLE
        call Relinquish
        str  r4 r3                  ; the same store: fault

at @CREW_CODE
crew:   movi r1 DESCRIPTOR_WORDS
        call Share
        call Yield

at @CREW_TX
        descriptor share BOSS SHARED

budget 100

; What bench prints, and why:
;   4 0 8400006d 8400006d 00000000    boss runs crew
;   8 1 84000073 84000061 00000000    crew shares: handle 0
;   11 1 8400006c 84000061 00000000   crew yields
;   15 0 84000074 84000061 00000000   boss retrieves
;   24 0 84000076 84000061 0000cafe   boss has stored and loaded the word, and relinquishes
;   end 25 fault                      boss's store behind it
