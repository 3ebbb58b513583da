; donate.asm: a page changes hands for good, and then once more.
;
; Guest 1, giver, donates its page gift to guest 2, taker. When taker retrieves it, taker is the owner and the sending
; is over: giver can neither reclaim the page nor send it again. Taker can: it donates the page on to guest 0, boss,
; who finds in it the word that giver wrote at the very beginning.
;
; Look at giver's two errors in the middle: the handle is gone (INVALID_PARAMETERS), and the page is not giver's any
; more (DENIED). Look at taker's Donate too: it gets handle 0 again, which was free as soon as taker had retrieved.

BOSS = 0
GIVER = 1
TAKER = 2

BOSS_CODE = 0
GIVER_CODE = 1
TAKER_CODE = 2
BOSS_TX = 3
BOSS_RX = 4
GIVER_TX = 5
GIVER_RX = 6
TAKER_TX = 7
TAKER_RX = 8
GIFT = 9                            ; the page that is given

GOLD = 0x901d                       ; what is in it

DESCRIPTOR_WORDS = 3
HANDLE = 0                          ; the lowest one, both times

machine guests 3 pages 10
guest BOSS  tx BOSS_TX  rx BOSS_RX  start boss
guest GIVER tx GIVER_TX rx GIVER_RX start giver
guest TAKER tx TAKER_TX rx TAKER_RX start taker
page BOSS_CODE  owner BOSS
page GIVER_CODE owner GIVER
page TAKER_CODE owner TAKER
page GIFT       owner GIVER

at @BOSS_CODE
boss:   movi r1 GIVER
        call Run                    ; giver donates
        movi r1 TAKER
        call Run                    ; taker retrieves
        movi r1 GIVER
        call Run                    ; giver wants it back
        movi r1 TAKER
        call Run                    ; taker donates it on, to boss
        movi r1 HANDLE
        call Retrieve               ; boss owns the page from here on
        set  r3 @GIFT
        ldr  r2 r3
        call Yield                  ; shows the word in it
        halt

at @GIVER_CODE
giver:  set  r3 @GIFT
        movi r4 GOLD
        str  r4 r3
        movi r1 DESCRIPTOR_WORDS
        call Donate                 ; giver cannot reach the page any more; until taker retrieves, it could reclaim
        call Yield
        movi r1 HANDLE              ; the second turn, when taker has retrieved:
        call Reclaim                ; INVALID_PARAMETERS: there is no such sending, it ended with the Retrieve
        movi r1 DESCRIPTOR_WORDS
        call Donate                 ; DENIED: the page in the descriptor is not owned by giver
        call Yield

at @GIVER_TX
        descriptor donate TAKER GIFT

at @TAKER_CODE
taker:  movi r1 HANDLE
        call Retrieve               ; taker owns the page from here on
        set  r3 @GIFT
        ldr  r2 r3                  ; what giver wrote
        call Yield                  ; shows it
        movi r1 DESCRIPTOR_WORDS    ; the second turn:
        call Donate                 ; an owner may give away what it has been given
        call Yield

at @TAKER_TX
        descriptor donate BOSS GIFT

budget 100

; What bench prints, and why:
;   4 0 8400006d 8400006d 00000000    boss runs giver
;   12 1 84000071 84000061 00000000   giver's Donate: success, handle 0
;   15 1 8400006c 84000061 00000000   giver yields
;   19 0 8400006d 8400006d 00000000   boss runs taker
;   23 2 84000074 84000061 00000000   taker retrieves and is the owner; handle 0 is free
;   29 2 8400006c 84000061 0000901d   taker shows the word
;   33 0 8400006d 8400006d 00000000   boss runs giver
;   37 1 84000077 84000060 fffffffe   giver reclaims: INVALID_PARAMETERS
;   41 1 84000071 84000060 fffffffa   giver donates again: DENIED
;   44 1 8400006c 84000061 fffffffa   giver yields; R2 still holds the error
;   48 0 8400006d 8400006d 00000000   boss runs taker
;   52 2 84000071 84000061 00000000   taker's Donate: success, handle 0 once more
;   55 2 8400006c 84000061 00000000   taker yields
;   59 0 84000074 84000061 00000000   boss retrieves
;   65 0 8400006c 84000061 0000901d   boss shows the word, untouched through two donations
;   end 66 halted
