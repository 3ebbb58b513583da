; fault-fetch-outside.asm: a guest runs off the end of memory.
;
; The code of guest 0, boss, lies in the last three words of the last page, and its last word is a call. The call is
; made as any other; the next instruction would be the first word behind memory, and that is a fault.
;
; Look at the call's line: the fault is a step of its own, behind it, and takes nothing back.

BOSS = 0
CREW = 1

BOSS_TX = 0
BOSS_RX = 1
CREW_TX = 2
CREW_RX = 3
CREW_CODE = 4
BOSS_CODE = 5                       ; the last page

CALL_WORDS = 3                      ; what a `call` takes
BEHIND = @6                         ; the first address behind memory, where page 6 would begin

machine guests 2 pages 6
guest BOSS tx BOSS_TX rx BOSS_RX start boss
guest CREW tx CREW_TX rx CREW_RX start crew
page BOSS_CODE owner BOSS
page CREW_CODE owner CREW

at BEHIND-CALL_WORDS
boss:   call Yield                  ; guest 0 stays current; the pc goes on to BEHIND
                                    ; and there is nothing to fetch: fault

at @CREW_CODE
crew:   halt                        ; crew never has a turn

budget 100

; What bench prints, and why:
;   3 0 8400006c 84000061 00000000   boss's Yield, in the last word of memory: success
;   end 4 fault                      the fetch behind it; a step that faults counts
