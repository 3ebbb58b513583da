; fault-no-instruction.asm: a guest runs a word that is no instruction.
;
; Guest 0, boss, makes a call, and somebody has forgotten the halt behind it. Words that the image does not give are
; 0, and 0 is no instruction. This is the fault that everybody meets first.
;
; Neither are instructions: a code above 13, a register above 7, and anything but 0 in a field that the instruction
; does not use. For each of them change the word below: 0x0000000e, 0x00000801, 0x0001000d.
;
; Look at the call's line: what was done before the fault stays done.

BOSS = 0
CREW = 1

BOSS_CODE = 0
CREW_CODE = 1
BOSS_TX = 2
BOSS_RX = 3
CREW_TX = 4
CREW_RX = 5

NO_INSTRUCTION = 0

machine guests 2 pages 6
guest BOSS tx BOSS_TX rx BOSS_RX start boss
guest CREW tx CREW_TX rx CREW_RX start crew
page BOSS_CODE owner BOSS
page CREW_CODE owner CREW

at @BOSS_CODE
boss:   call Yield
        word NO_INSTRUCTION         ; fetched as it should be, but it means nothing: fault

at @CREW_CODE
crew:   halt                        ; crew never has a turn

budget 100

; What bench prints, and why:
;   3 0 8400006c 84000061 00000000   boss's Yield
;   end 4 fault                      the word behind it
