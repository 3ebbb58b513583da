; template.asm: the smallest program that is a good start for your own.
;
; Two guests with one page of code each. Guest 0, boss, starts, as guest 0 always does, and gives guest 1, worker, a
; turn. Worker puts a value into R2 and hands control back, and boss ends the run.
;
; Look at the last column of the second line: it is worker's R2 behind its call. That is the way to see a value, since
; bench prints a line for calls only.
;
; To begin: copy this file, change what is marked CHANGE, and run it with  tools/try my.asm

; The guests. CHANGE: for a third one add a name here and count it in `machine`; it needs its own `guest` line, its own
; two mailbox pages, and a page for its code.
BOSS = 0
WORKER = 1

; The pages. CHANGE: for a page of data add a name here, count it in `machine` and give it an owner below.
BOSS_CODE = 0
WORKER_CODE = 1
BOSS_TX = 2                         ; a guest writes here what it sends
BOSS_RX = 3                         ; and reads here what it was sent
WORKER_TX = 4
WORKER_RX = 5

; CHANGE: the value that worker shows.
ANSWER = 42

machine guests 2 pages 6
guest BOSS   tx BOSS_TX   rx BOSS_RX   start boss
guest WORKER tx WORKER_TX rx WORKER_RX start worker
page BOSS_CODE   owner BOSS         ; a guest can only run what lies in a page that it can reach
page WORKER_CODE owner WORKER

at @BOSS_CODE
boss:   movi r1 WORKER              ; Run wants to know whom
        call Run                    ; boss stands still here until worker hands control back
        ; CHANGE: more turns, more guests
        halt                        ; ends the run for everybody

at @WORKER_CODE
worker: movi r2 ANSWER              ; CHANGE: this is worker's work
        call Yield                  ; boss goes on; a Yield leaves R2 alone, so the line shows the value
        set  r7 worker              ; if boss gives another turn, it begins here:
        br   r7                     ; once more from the top

budget 100                          ; CHANGE: the run ends after so many steps, if no halt or fault ends it before

; What bench prints, and why:
;   4 0 8400006d 8400006d 00000000   boss's Run, its fourth step; a Run that works changes no register
;   8 1 8400006c 84000061 0000002a   worker's Yield: success; R2 is 42, in hex
;   end 9 halted                     boss's halt is the ninth step
