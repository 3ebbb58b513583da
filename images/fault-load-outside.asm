; fault-load-outside.asm: a guest loads from behind the end of memory.
;
; Guest 0, boss, loads the last word of memory, which is in a page of its own, and shows it. Then it adds 1 to the
; address and loads again.
;
; Look at the one line: the last word is still fine.

BOSS = 0
CREW = 1

BOSS_CODE = 0
CREW_CODE = 1
BOSS_TX = 2
BOSS_RX = 3
CREW_TX = 4
CREW_RX = 5
LAST = 6                            ; the last page
BEHIND = @7                         ; the first address behind memory, where page 7 would begin

LAST_WORD = 0xcafe

machine guests 2 pages 7
guest BOSS tx BOSS_TX rx BOSS_RX start boss
guest CREW tx CREW_TX rx CREW_RX start crew
page BOSS_CODE owner BOSS
page CREW_CODE owner CREW
page LAST      owner BOSS

at @BOSS_CODE
boss:   set  r3 BEHIND-1
        ldr  r2 r3                  ; the last word of memory
        call Yield                  ; shows it
        addi r3 1
        ldr  r2 r3                  ; there is no such word: fault

at BEHIND-1
        word LAST_WORD

at @CREW_CODE
crew:   halt                        ; crew never has a turn

budget 100

; What bench prints, and why:
;   6 0 8400006c 84000061 0000cafe   the last word of memory
;   end 8 fault                      addi is step 7, the load behind memory step 8
