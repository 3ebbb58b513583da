; fault-store-own-rx.asm: a guest stores to its own RX page.
;
; Guest 1, crew, sends a word to guest 0, boss. Boss takes the message and reads the word in its RX page. Then it
; stores the same word to the same place. A guest may read that page, but not write it, not even with the message
; taken.
;
; Look at boss's last line: it could read the word.

BOSS = 0
CREW = 1

BOSS_CODE = 0
CREW_CODE = 1
BOSS_TX = 2
BOSS_RX = 3
CREW_TX = 4
CREW_RX = 5

SENT_WORD = 0xcafe
MESSAGE_WORDS = 1

machine guests 2 pages 6
guest BOSS tx BOSS_TX rx BOSS_RX start boss
guest CREW tx CREW_TX rx CREW_RX start crew
page BOSS_CODE owner BOSS
page CREW_CODE owner CREW

at @BOSS_CODE
boss:   movi r1 CREW
        call Run                    ; crew sends
        call Poll                   ; takes the message
        set  r3 @BOSS_RX
        ldr  r2 r3                  ; allowed
        call Yield                  ; shows it
        str  r2 r3                  ; fault

at @CREW_CODE
crew:   movi r1 BOSS
        movi r2 MESSAGE_WORDS
        call Send                   ; boss goes on

at @CREW_TX
        word SENT_WORD

budget 100

; What bench prints, and why:
;   4 0 8400006d 8400006d 00000000    boss runs crew
;   9 1 8400006e 84000061 00000001    crew sends 1 word; boss goes on
;   12 0 8400006a 8400006e 00000001   boss takes a message of 1 word
;   18 0 8400006c 84000061 0000cafe   boss shows the word
;   end 19 fault                      boss's store to its RX page
