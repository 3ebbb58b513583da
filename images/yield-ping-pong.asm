; yield-ping-pong.asm: two guests take turns, and a loop counts them.
;
; Guest 0, ping, runs guest 1, pong, which adds to a counter of its own and yields back; so three times. Ping counts
; the rounds in a register and leaves the loop when the count is reached.
;
; Look at the last column. Ping's lines show its count, 1, 2, 3; pong's show its own, 10, 20, 30 (in hex). Both keep
; it in r4: each guest has its own registers, and finds them as it left them when its next turn comes.

PING = 0
PONG = 1

PING_CODE = 0
PONG_CODE = 1
PING_TX = 2
PING_RX = 3
PONG_TX = 4
PONG_RX = 5

ROUNDS = 3
PONG_ADDS = 0x10                    ; what pong adds each time

machine guests 2 pages 6
guest PING tx PING_TX rx PING_RX start ping
guest PONG tx PONG_TX rx PONG_RX start pong
page PING_CODE owner PING
page PONG_CODE owner PONG

at @PING_CODE
ping:   movi r4 0                   ; rounds done; r0 to r2 belong to the calls, so it is kept in r4
        movi r5 ROUNDS              ; rounds to do
        set  r7 round               ; a branch takes its target from a register
round:  movi r1 PONG                ; whom to run
        call Run                    ; pong goes on where it stood; ping goes on below when pong yields
        addi r4 1                   ; one more round is done
        mov  r2 r4                  ; only to show it:
        call Yield                  ; guest 0 has nobody to yield to, so this does nothing but print R2
        cmp  r4 r5                  ; the flag says whether they are equal
        bne  r7                     ; not yet: another round
        halt

at @PONG_CODE
pong:   set  r7 turn                ; done once, in the first turn
turn:   addi r4 PONG_ADDS           ; pong's own r4, which was 0 at the start
        mov  r2 r4                  ; to show it
        call Yield                  ; ping goes on; pong stands here until its next turn,
        br   r7                     ; which therefore begins with this branch

budget 100

; What bench prints, and why:
;   8 0 8400006d 8400006d 00000000    round 1: ping runs pong
;   15 1 8400006c 84000061 00000010   pong has added 0x10 and yields
;   20 0 8400006c 84000061 00000001   ping has counted 1; they are not equal, so it goes round again
;   26 0 8400006d 8400006d 00000001   round 2: ping runs pong; R2 still holds what was shown last
;   32 1 8400006c 84000061 00000020   pong, behind its branch, has added again
;   37 0 8400006c 84000061 00000002   ping has counted 2
;   43 0 8400006d 8400006d 00000002   round 3
;   49 1 8400006c 84000061 00000030   pong's third turn
;   54 0 8400006c 84000061 00000003   ping has counted 3: equal, and the branch is not taken
;   end 57 halted                     cmp, bne and halt are the last three steps
