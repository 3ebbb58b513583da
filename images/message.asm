; message.asm: how the receiver of a page learns its handle.
;
; Guest 1, crew, shares a photo page with guest 2, store, and sends store a message. Guest 0, boss, gives the turns.
; Store has its turn first and waits: there is no message, so its Wait hands control back to boss. When it goes on it
; has to ask again, and then it finds the message, reads handle and page from its RX page, retrieves, reads, and gives
; the page back.
;
; The message is the descriptor that crew has in its TX page anyway, with the handle behind it:
;     word 0  3, the length of the descriptor
;     word 1  kind and receiver
;     word 2  the address of the page
;     word 3  the handle
; So store needs to know nothing beforehand, and the descriptor is still whole if crew wants to share again.
;
; Look at store's two Waits: the first answers success (84000061) without a message, the second answers by the number
; of Send (8400006e), with the length in the last column. Look at boss behind crew's Send, too: it is told in R2 for
; whom the message is (2), and runs just that guest.

BOSS = 0
CREW = 1
STORE = 2

BOSS_CODE = 0
CREW_CODE = 1
STORE_CODE = 2
BOSS_TX = 3
BOSS_RX = 4
CREW_TX = 5
CREW_RX = 6
STORE_TX = 7
STORE_RX = 8
PHOTO = 9                           ; the page to share

PHOTO_WORD = 0xf070                 ; what is in it

DESCRIPTOR_WORDS = 3
BASE_AT = 2                         ; where the message has the page's address
HANDLE_AT = 3                       ; where it has the handle
MESSAGE_WORDS = 4

machine guests 3 pages 10
guest BOSS  tx BOSS_TX  rx BOSS_RX  start boss
guest CREW  tx CREW_TX  rx CREW_RX  start crew
guest STORE tx STORE_TX rx STORE_RX start store
page BOSS_CODE  owner BOSS
page CREW_CODE  owner CREW
page STORE_CODE owner STORE
page PHOTO      owner CREW

at @BOSS_CODE
boss:   movi r1 STORE
        call Run                    ; store waits
        movi r1 CREW
        call Run                    ; crew sends: R0 = Send, R1 = crew, R2 = the receiver
        mov  r1 r2                  ; so run the one who has mail
        call Run                    ; store reads and gives the page back
        movi r1 CREW
        call Run                    ; crew takes its page back
        halt

at @CREW_CODE
crew:   movi r1 DESCRIPTOR_WORDS
        call Share                  ; R2 = the handle
        mov  r5 r2                  ; keep it for the Reclaim
        set  r3 @CREW_TX+HANDLE_AT
        str  r5 r3                  ; behind the descriptor: now TX holds the whole message
        movi r1 STORE               ; to whom
        movi r2 MESSAGE_WORDS       ; how many words, from the start of TX on
        call Send                   ; boss goes on, and crew behind this call at its next turn
        mov  r1 r5
        call Reclaim                ; store has relinquished, so this works
        call Yield

at @CREW_TX
        descriptor share STORE PHOTO

at @PHOTO
        word PHOTO_WORD             ; there from the start; nobody has to write it

at @STORE_CODE
store:  set  r6 Send                ; R0 of a Wait that found a message
        set  r7 ask
ask:    call Wait                   ; no message: boss goes on, and R0 = Success
        cmp  r0 r6
        bne  r7                     ; so it was without a message: ask again, now that store has the turn again
        set  r3 @STORE_RX+HANDLE_AT
        ldr  r5 r3                  ; the handle
        set  r3 @STORE_RX+BASE_AT
        ldr  r4 r3                  ; the address of the photo page
        mov  r1 r5
        call Retrieve               ; from here on store can reach the photo page
        ldr  r2 r4                  ; its first word, which the next line will show
        mov  r1 r5
        call Relinquish             ; done with it
        call Yield

budget 100

; What bench prints, and why:
;   4 0 8400006d 8400006d 00000000    boss runs store
;   11 2 8400006b 84000061 00000000   store waits: no message, boss goes on
;   15 0 8400006d 8400006d 00000000   boss runs crew
;   19 1 84000073 84000061 00000000   crew's Share: success, handle 0
;   28 1 8400006e 84000061 00000004   crew's Send of 4 words: success, boss goes on
;   32 0 8400006d 8400006d 00000002   boss runs guest 2, as its R2 says
;   37 2 8400006b 8400006e 00000004   store asks again: a message of 4 words
;   49 2 84000074 84000061 00000004   store retrieves the handle that it read
;   54 2 84000076 84000061 0000f070   store relinquishes; R2 shows what it read in the photo
;   57 2 8400006c 84000061 0000f070   store yields
;   61 0 8400006d 8400006d 00000002   boss runs crew
;   65 1 84000077 84000061 00000004   crew reclaims
;   68 1 8400006c 84000061 00000004   crew yields
;   end 69 halted
