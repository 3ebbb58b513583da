; fault-load-no-access.asm: a guest loads from a page that it has lent.
;
; Guest 0, boss, owns a page, loads its first word and shows it. Then it lends the page to guest 1, crew, and loads
; the same word again. Boss is still the owner, but not one of those who can reach the page; that crew has not
; retrieved it yet makes no difference.
;
; Look at the two lines: the load worked before the Lend, and the Lend worked. The same load behind it is the fault.

BOSS = 0
CREW = 1

BOSS_CODE = 0
CREW_CODE = 1
BOSS_TX = 2
BOSS_RX = 3
CREW_TX = 4
CREW_RX = 5
LENT = 6

LENT_WORD = 0xcafe
DESCRIPTOR_WORDS = 3

machine guests 2 pages 7
guest BOSS tx BOSS_TX rx BOSS_RX start boss
guest CREW tx CREW_TX rx CREW_RX start crew
page BOSS_CODE owner BOSS
page CREW_CODE owner CREW
page LENT      owner BOSS

at @BOSS_CODE
boss:   set  r3 @LENT
        ldr  r2 r3                  ; allowed
        call Yield                  ; shows it
        movi r1 DESCRIPTOR_WORDS
        call Lend
        ldr  r2 r3                  ; the same load: fault

at @BOSS_TX
        descriptor lend CREW LENT

at @LENT
        word LENT_WORD

at @CREW_CODE
crew:   halt                        ; crew never has a turn

budget 100

; What bench prints, and why:
;   6 0 8400006c 84000061 0000cafe    the word, before the Lend
;   10 0 84000072 84000061 00000000   the Lend: success, handle 0
;   end 11 fault                      the load behind it
