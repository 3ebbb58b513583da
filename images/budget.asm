; budget.asm: a run that ends because its budget is used up, right behind a call.
;
; Guest 0, boss, runs guest 1, crew, again and again, and crew yields each time; nobody ever halts. So it is the
; budget that ends the run, here with a Run: control has gone over to crew, but crew has not made its next step.
;
; Look at the last two lines: the call of the last step is printed, and the mode is normal: nothing has gone wrong,
; and the machine could go on from there. With a budget of 1 less the last Run would not have been made, nor printed.

BOSS = 0
CREW = 1

BOSS_CODE = 0
CREW_CODE = 1
BOSS_TX = 2
BOSS_RX = 3
CREW_TX = 4
CREW_RX = 5

STEPS = 27                          ; the third Run is step 27

machine guests 2 pages 6
guest BOSS tx BOSS_TX rx BOSS_RX start boss
guest CREW tx CREW_TX rx CREW_RX start crew
page BOSS_CODE owner BOSS
page CREW_CODE owner CREW

at @BOSS_CODE
boss:   set  r7 again               ; steps 1 and 2
again:  movi r1 CREW
        call Run                    ; three steps, the third being the hvc: step 6, then 17, then 27
        br   r7                     ; round and round, without an end

at @CREW_CODE
crew:   set  r7 turn
turn:   addi r2 1                   ; counts crew's turns where the lines show it
        call Yield
        br   r7

budget STEPS

; What bench prints, and why:
;   6 0 8400006d 8400006d 00000000    boss runs crew
;   12 1 8400006c 84000061 00000001   crew's first turn
;   17 0 8400006d 8400006d 00000000   boss runs crew
;   22 1 8400006c 84000061 00000002   crew's second turn
;   27 0 8400006d 8400006d 00000000   boss runs crew: the last step of the budget
;   end 27 normal                     crew's third turn does not come
