; fault-load-own-tx.asm: a guest loads from its own TX page.
;
; Guest 0, boss, writes a word to its TX page and sends it to guest 1, crew, which shows it: the word is there. Then
; boss loads the word from its TX page itself. A guest may write that page, but not read it.
;
; Look at crew's last line: what boss cannot read has arrived.

BOSS = 0
CREW = 1

BOSS_CODE = 0
CREW_CODE = 1
BOSS_TX = 2
BOSS_RX = 3
CREW_TX = 4
CREW_RX = 5

SENT_WORD = 0xcafe
MESSAGE_WORDS = 1

machine guests 2 pages 6
guest BOSS tx BOSS_TX rx BOSS_RX start boss
guest CREW tx CREW_TX rx CREW_RX start crew
page BOSS_CODE owner BOSS
page CREW_CODE owner CREW

at @BOSS_CODE
boss:   set  r3 @BOSS_TX
        movi r4 SENT_WORD
        str  r4 r3                  ; allowed: that is what TX is for
        movi r1 CREW
        movi r2 MESSAGE_WORDS
        call Send                   ; guest 0 stays current behind its Send
        movi r1 CREW
        call Run
        ldr  r2 r3                  ; r3 still holds the address of the word: fault

at @CREW_CODE
crew:   call Poll                   ; a message of 1 word
        set  r3 @CREW_RX
        ldr  r2 r3                  ; boss's word, copied to crew's RX page
        call Yield                  ; shows it

budget 100

; What bench prints, and why:
;   9 0 8400006e 84000061 00000001    boss's Send of 1 word
;   13 0 8400006d 8400006d 00000001   boss runs crew
;   16 1 8400006a 8400006e 00000001   crew takes the message of 1 word
;   22 1 8400006c 84000061 0000cafe   crew shows the word
;   end 23 fault                      boss's load from its TX page
