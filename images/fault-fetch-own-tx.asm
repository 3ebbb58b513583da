; fault-fetch-own-tx.asm: a guest runs code in its own TX page.
;
; Both mailbox pages of guest 0, boss, hold the same little piece of code, which calls Yield and jumps back. The RX
; page may be read, and so be run: that works. The TX page may only be written: the first fetch there is a fault.
;
; Look at the one line: it comes from the RX page. The same words in the TX page print nothing.

BOSS = 0
CREW = 1

BOSS_CODE = 0
CREW_CODE = 1
BOSS_TX = 2
BOSS_RX = 3
CREW_TX = 4
CREW_RX = 5

machine guests 2 pages 6
guest BOSS tx BOSS_TX rx BOSS_RX start boss
guest CREW tx CREW_TX rx CREW_RX start crew
page BOSS_CODE owner BOSS
page CREW_CODE owner CREW

at @BOSS_CODE
boss:   set  r7 back                ; where the code in the RX page jumps to
        set  r6 in_rx
        br   r6                     ; allowed
back:   set  r6 in_tx
        br   r6                     ; the branch is allowed, the fetch there is the fault

at @BOSS_RX
in_rx:  call Yield
        br   r7

at @BOSS_TX
in_tx:  call Yield                  ; word for word the same
        br   r7

at @CREW_CODE
crew:   halt                        ; crew never has a turn

budget 100

; What bench prints, and why:
;   8 0 8400006c 84000061 00000000   the Yield in the RX page
;   end 13 fault                     br is step 9, set 10 and 11, br 12, the fetch in the TX page step 13
