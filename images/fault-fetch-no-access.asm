; fault-fetch-no-access.asm: a guest jumps into a page that it cannot reach.
;
; Guest 0, boss, gives guest 1, crew, a turn; crew runs its code and yields. Then boss jumps to the very same code. It
; is fine for crew, but it lies in crew's page, and boss has no access to that.
;
; Look at crew's line: the instructions are good, it is only the wrong guest that runs them in the end. And the whole
; run ends, not only boss.

BOSS = 0
CREW = 1

BOSS_CODE = 0
CREW_CODE = 1
BOSS_TX = 2
BOSS_RX = 3
CREW_TX = 4
CREW_RX = 5

machine guests 2 pages 6
guest BOSS tx BOSS_TX rx BOSS_RX start boss
guest CREW tx CREW_TX rx CREW_RX start crew
page BOSS_CODE owner BOSS
page CREW_CODE owner CREW

at @BOSS_CODE
boss:   movi r1 CREW
        call Run
        set  r7 crew
        br   r7                     ; the branch itself is allowed, it only sets the pc; the fetch there is the fault

at @CREW_CODE
crew:   call Yield

budget 100

; What bench prints, and why:
;   4 0 8400006d 8400006d 00000000   boss runs crew
;   7 1 8400006c 84000061 00000000   crew yields: for crew the code runs
;   end 11 fault                     set is steps 8 and 9, br step 10, the fetch step 11
