; errors.asm: every error that a guest can get from a call.
;
; Call by call, and for each call test by test, in the order in which the machine makes them; the comment names the test
; that refuses. Guest 0, boss, makes most of the calls; guest 1, crew, makes those that only a guest other than 0, or
; only a receiver, can make.
;
; Look at the last column, which names the error, and at the comment that says which test it was:
;     fffffffe  INVALID_PARAMETERS     fffffffa  DENIED      ffffffff  NOT_SUPPORTED
;     fffffffc  BUSY                   fffffff7  NO_DATA
; The lines that answer 84000061 only prepare what comes next; their last column may still show an older error.
;
; Two errors cannot be shown here. NO_MEMORY needs all 16 handles in use, each with a page of its own that is no mailbox
; page; bench takes 16 pages at most, and at least 4 of them are mailbox pages. ABORTED needs a page that is not as its
; sending has left it; no guest can bring that about, and a machine that is so to begin with is not run at all.
; Yield gives no error, whoever calls it.

BOSS = 0
CREW = 1
NO_GUEST = 2                        ; there are only guests 0 and 1

BOSS_CODE = 0
CREW_CODE = 1
CASES = 2                           ; boss's table of wrong descriptors
SPARE = 3                           ; has no owner
CREWS = 4                           ; crew's
GOOD = 5                            ; boss's, and nothing is wrong with it
GOOD_TOO = 6                        ; so is this one
LENT = 7                            ; boss's, and lent to crew
SHARED = 8                          ; boss's, and shared with crew
BOSS_TX = 9
BOSS_RX = 10
CREW_TX = 11
CREW_RX = 12
NO_PAGE = 13                        ; there are only pages 0 to 12

LENT_HANDLE = 0                     ; the two sendings that boss makes
SHARED_HANDLE = 1
FREE_HANDLE = 15                    ; a handle, but not in use
NO_HANDLE = 16                      ; no handle at all; it is not taken for handle 0, which is in use

LONGEST_MESSAGE = 1024

; What a descriptor is made of: its length, kind and receiver in one word, and the pages.
ONE_PAGE = 3                        ; the length with one page
TWO_PAGES = 4                       ; the length with two
DONATE_KIND = 1
SHARE_KIND = 3
TO_BOSS = 0x0000_0000               ; the receiver is the upper half of its word
TO_CREW = 0x0001_0000
TO_NOBODY = 0x0002_0000

machine guests 2 pages 13
guest BOSS tx BOSS_TX rx BOSS_RX start boss
guest CREW tx CREW_TX rx CREW_RX start crew
page BOSS_CODE owner BOSS
page CREW_CODE owner CREW
page CASES     owner BOSS
page CREWS     owner CREW
page GOOD      owner BOSS
page GOOD_TOO  owner BOSS
page LENT      owner BOSS
page SHARED    owner BOSS

at @BOSS_CODE

; ---- Run
boss:   movi r1 CREW
        call Run                    ; works: crew calls Run in its turn, and is DENIED
        movi r1 BOSS
        call Run                    ; INVALID_PARAMETERS: R1 is 0
        movi r1 NO_GUEST
        call Run                    ; INVALID_PARAMETERS: R1 is not below the number of guests

; ---- Poll and Wait
        call Poll                   ; NO_DATA: boss's RX is empty
        call Wait                   ; NO_DATA: the same, and guest 0 has nobody to hand control to meanwhile

; ---- Send
        movi r1 NO_GUEST
        movi r2 1
        call Send                   ; INVALID_PARAMETERS: the receiver is not below the number of guests
        movi r1 BOSS
        movi r2 1
        call Send                   ; INVALID_PARAMETERS: the receiver is the caller
        movi r1 CREW
        movi r2 0
        call Send                   ; INVALID_PARAMETERS: the length is 0
        movi r1 CREW
        movi r2 LONGEST_MESSAGE+1
        call Send                   ; INVALID_PARAMETERS: the length is above 1,024
        movi r1 CREW
        movi r2 1
        call Send                   ; works: crew has a message from here on, and never takes it
        movi r1 CREW
        movi r2 1
        call Send                   ; BUSY: crew's RX is not empty
        movi r1 CREW
        movi r2 0
        call Send                   ; INVALID_PARAMETERS: the length comes first, though crew's RX is full

; ---- Donate, Lend and Share. Two sendings that work make pages that are boss's, but cannot be sent again.
        movi r1 ONE_PAGE
        call Lend                   ; works, by the descriptor in the image: handle 0
        set  r3 @BOSS_TX+1          ; for the next one the descriptor needs another kind, in word 1,
        set  r5 TO_CREW+SHARE_KIND
        str  r5 r3
        addi r3 1                   ; and another page, in word 2
        set  r5 @SHARED
        str  r5 r3
        movi r1 ONE_PAGE
        call Share                  ; works: handle 1

; Then every case of the table below, first with Donate, then with Lend, then with Share. r6 is the kind, 1 to 3.
        movi r6 DONATE_KIND
each_kind:
        set  r3 cases               ; r3 goes through the table
each_case:
        ldr  r1 r3                  ; R1 of the call
        addi r3 1
        set  r4 @BOSS_TX            ; r4 goes through the TX page
        ldr  r5 r3                  ; word 0
        str  r5 r4
        addi r3 1
        addi r4 1
        ldr  r5 r3                  ; word 1, as yet without the kind
        add  r5 r6
        str  r5 r4
        addi r3 1
        addi r4 1
        ldr  r5 r3                  ; word 2, a page's base
        str  r5 r4
        addi r3 1
        addi r4 1
        ldr  r5 r3                  ; word 3, another one's, or nothing that the call looks at
        str  r5 r4
        addi r3 1
        set  r0 Donate-DONATE_KIND  ; the numbers of the three calls follow each other as the kinds do
        add  r0 r6
        hvc                         ; Donate, Lend or Share
        ldr  r5 r3                  ; the error that the table names
        cmp  r2 r5
        set  r7 wrong
        bne  r7                     ; another answer: this is not the machine that we know
        addi r3 1
        set  r5 cases_end
        cmp  r3 r5
        set  r7 each_case
        bne  r7
        addi r6 1                   ; the next kind
        movi r5 SHARE_KIND+1
        cmp  r6 r5
        set  r7 each_kind
        bne  r7

; ---- Retrieve. Neither sending has been retrieved up to here.
        movi r1 NO_HANDLE
        call Retrieve               ; INVALID_PARAMETERS: R1 is above 15
        movi r1 FREE_HANDLE
        call Retrieve               ; INVALID_PARAMETERS: there is no such sending
        movi r1 LENT_HANDLE
        call Retrieve               ; DENIED: the caller is not the receiver, it is the sender
        movi r1 CREW
        call Run                    ; works: crew retrieves LENT_HANDLE, and tries it twice

; ---- Relinquish. LENT_HANDLE has been retrieved, SHARED_HANDLE has not.
        movi r1 NO_HANDLE
        call Relinquish             ; INVALID_PARAMETERS: R1 is above 15
        movi r1 FREE_HANDLE
        call Relinquish             ; INVALID_PARAMETERS: there is no such sending
        movi r1 LENT_HANDLE
        call Relinquish             ; DENIED: the caller is not the receiver
        movi r1 CREW
        call Run                    ; works: crew goes on with Relinquish, and with Reclaim

; ---- Reclaim, the last case
        movi r1 LENT_HANDLE
        call Reclaim                ; DENIED: crew has retrieved it, and not relinquished

; ---- Any other number
        set  r0 Donate-1
        hvc                         ; NOT_SUPPORTED: 0x84000070, right below Donate
        set  r0 Retrieve+1
        hvc                         ; NOT_SUPPORTED: 0x84000075, between Retrieve and Relinquish
        movi r0 0x6d
        hvc                         ; NOT_SUPPORTED: Run's number without its upper half
        halt

wrong:  word 0                      ; no instruction: a fault

at @BOSS_TX
        descriptor lend CREW LENT

; The cases. Each is R1, words 0 to 3 of the TX page, and the error that comes of it. The kind is added to word 1 by the
; loop above, so that a case holds for all three calls.
at @CASES
cases:
        ; R1 is not 3 to 10
        word 2         2         TO_CREW   0         0         INVALID_PARAMETERS
        word 11        11        TO_CREW   @GOOD     @GOOD_TOO INVALID_PARAMETERS
        ; word 0 is not R1
        word ONE_PAGE  TWO_PAGES TO_CREW   @GOOD     @GOOD_TOO INVALID_PARAMETERS
        ; the kind is not this call's, but one above it
        word ONE_PAGE  ONE_PAGE  TO_CREW+1 @GOOD     0         INVALID_PARAMETERS
        ; the receiver is not below the number of guests, or it is the caller
        word ONE_PAGE  ONE_PAGE  TO_NOBODY @GOOD     0         INVALID_PARAMETERS
        word ONE_PAGE  ONE_PAGE  TO_BOSS   @GOOD     0         INVALID_PARAMETERS
        ; a base is no page's: it lies inside one, or behind memory
        word ONE_PAGE  ONE_PAGE  TO_CREW   @GOOD+1   0         INVALID_PARAMETERS
        word ONE_PAGE  ONE_PAGE  TO_CREW   @NO_PAGE  0         INVALID_PARAMETERS
        ; the bases do not ascend: the same one twice, or the higher one first
        word TWO_PAGES TWO_PAGES TO_CREW   @GOOD     @GOOD     INVALID_PARAMETERS
        word TWO_PAGES TWO_PAGES TO_CREW   @GOOD_TOO @GOOD     INVALID_PARAMETERS
        ; a page is not owned by the caller: it is another guest's, nobody's, or a mailbox page, even the caller's own
        word ONE_PAGE  ONE_PAGE  TO_CREW   @CREWS    0         DENIED
        word ONE_PAGE  ONE_PAGE  TO_CREW   @SPARE    0         DENIED
        word ONE_PAGE  ONE_PAGE  TO_CREW   @BOSS_TX  0         DENIED
        ; a page is owned by the caller but not accessible to it, being lent
        word ONE_PAGE  ONE_PAGE  TO_CREW   @LENT     0         DENIED
        ; a page is owned by the caller and accessible to it alone, but not exclusive, being shared
        word ONE_PAGE  ONE_PAGE  TO_CREW   @SHARED   0         DENIED
        ; one page of two cannot be sent: so neither is
        word TWO_PAGES TWO_PAGES TO_CREW   @GOOD     @SHARED   DENIED
cases_end:
        word 0                      ; only so that the label above has a word to stand at

at @CREW_CODE
crew:   movi r1 CREW
        call Run                    ; DENIED: the caller is not guest 0
        call Yield

        movi r1 LENT_HANDLE         ; the second turn, in the midst of boss's Retrieves
        call Retrieve               ; works
        movi r1 LENT_HANDLE
        call Retrieve               ; DENIED: it is retrieved already
        call Yield

        movi r1 SHARED_HANDLE       ; the third turn, behind boss's Relinquishes
        call Relinquish             ; DENIED: it is not retrieved
        movi r1 NO_HANDLE
        call Reclaim                ; INVALID_PARAMETERS: R1 is above 15
        movi r1 FREE_HANDLE
        call Reclaim                ; INVALID_PARAMETERS: there is no such sending
        movi r1 SHARED_HANDLE
        call Reclaim                ; DENIED: the caller is not the sender, it is the receiver
        call Yield

budget 5000

; What bench prints, and why. Each case of the table takes 36 steps, so the lines of the table are 36 apart:
;   4 0 8400006d 8400006d 00000000      boss runs crew
;   8 1 8400006d 84000060 fffffffa      Run: the caller is not guest 0
;   11 1 8400006c 84000061 fffffffa     crew yields
;   15 0 8400006d 84000060 fffffffe     Run: R1 is 0
;   19 0 8400006d 84000060 fffffffe     Run: no such guest
;   22 0 8400006a 84000060 fffffff7     Poll: no message
;   25 0 8400006b 84000060 fffffff7     Wait: no message, and the caller is guest 0
;   30 0 8400006e 84000060 fffffffe     Send: no such receiver
;   35 0 8400006e 84000060 fffffffe     Send: to itself
;   40 0 8400006e 84000060 fffffffe     Send: length 0
;   45 0 8400006e 84000060 fffffffe     Send: length 1,025
;   50 0 8400006e 84000061 00000001     a message for crew
;   55 0 8400006e 84000060 fffffffc     Send: crew has not taken the last one
;   60 0 8400006e 84000060 fffffffe     Send: length 0, which is tested before that
;   64 0 84000072 84000061 00000000     boss lends a page: handle 0
;   77 0 84000073 84000061 00000001     boss shares another: handle 1
;   104 0 84000071 84000060 fffffffe    Donate: R1 is 2
;   140 0 84000071 84000060 fffffffe    Donate: R1 is 11
;   176 0 84000071 84000060 fffffffe    Donate: word 0 is not R1
;   212 0 84000071 84000060 fffffffe    Donate: another kind
;   248 0 84000071 84000060 fffffffe    Donate: no such receiver
;   284 0 84000071 84000060 fffffffe    Donate: to itself
;   320 0 84000071 84000060 fffffffe    Donate: a base inside a page
;   356 0 84000071 84000060 fffffffe    Donate: a base behind memory
;   392 0 84000071 84000060 fffffffe    Donate: the same base twice
;   428 0 84000071 84000060 fffffffe    Donate: descending bases
;   464 0 84000071 84000060 fffffffa    Donate: crew's page
;   500 0 84000071 84000060 fffffffa    Donate: nobody's page
;   536 0 84000071 84000060 fffffffa    Donate: boss's own TX page
;   572 0 84000071 84000060 fffffffa    Donate: a page that is lent
;   608 0 84000071 84000060 fffffffa    Donate: a page that is shared
;   644 0 84000071 84000060 fffffffa    Donate: a good page and a shared one
;   688 0 84000072 84000060 fffffffe    Lend: R1 is 2
;   724 0 84000072 84000060 fffffffe    Lend: R1 is 11
;   760 0 84000072 84000060 fffffffe    Lend: word 0 is not R1
;   796 0 84000072 84000060 fffffffe    Lend: another kind
;   832 0 84000072 84000060 fffffffe    Lend: no such receiver
;   868 0 84000072 84000060 fffffffe    Lend: to itself
;   904 0 84000072 84000060 fffffffe    Lend: a base inside a page
;   940 0 84000072 84000060 fffffffe    Lend: a base behind memory
;   976 0 84000072 84000060 fffffffe    Lend: the same base twice
;   1012 0 84000072 84000060 fffffffe   Lend: descending bases
;   1048 0 84000072 84000060 fffffffa   Lend: crew's page
;   1084 0 84000072 84000060 fffffffa   Lend: nobody's page
;   1120 0 84000072 84000060 fffffffa   Lend: boss's own TX page
;   1156 0 84000072 84000060 fffffffa   Lend: a page that is lent
;   1192 0 84000072 84000060 fffffffa   Lend: a page that is shared
;   1228 0 84000072 84000060 fffffffa   Lend: a good page and a shared one
;   1272 0 84000073 84000060 fffffffe   Share: R1 is 2
;   1308 0 84000073 84000060 fffffffe   Share: R1 is 11
;   1344 0 84000073 84000060 fffffffe   Share: word 0 is not R1
;   1380 0 84000073 84000060 fffffffe   Share: another kind
;   1416 0 84000073 84000060 fffffffe   Share: no such receiver
;   1452 0 84000073 84000060 fffffffe   Share: to itself
;   1488 0 84000073 84000060 fffffffe   Share: a base inside a page
;   1524 0 84000073 84000060 fffffffe   Share: a base behind memory
;   1560 0 84000073 84000060 fffffffe   Share: the same base twice
;   1596 0 84000073 84000060 fffffffe   Share: descending bases
;   1632 0 84000073 84000060 fffffffa   Share: crew's page
;   1668 0 84000073 84000060 fffffffa   Share: nobody's page
;   1704 0 84000073 84000060 fffffffa   Share: boss's own TX page
;   1740 0 84000073 84000060 fffffffa   Share: a page that is lent
;   1776 0 84000073 84000060 fffffffa   Share: a page that is shared
;   1812 0 84000073 84000060 fffffffa   Share: a good page and a shared one
;   1834 0 84000074 84000060 fffffffe   Retrieve: R1 is 16
;   1838 0 84000074 84000060 fffffffe   Retrieve: handle 15 is free
;   1842 0 84000074 84000060 fffffffa   Retrieve: boss is not the receiver
;   1846 0 8400006d 8400006d fffffffa   boss runs crew
;   1850 1 84000074 84000061 fffffffa   crew retrieves
;   1854 1 84000074 84000060 fffffffa   Retrieve: already done
;   1857 1 8400006c 84000061 fffffffa   crew yields
;   1861 0 84000076 84000060 fffffffe   Relinquish: R1 is 16
;   1865 0 84000076 84000060 fffffffe   Relinquish: handle 15 is free
;   1869 0 84000076 84000060 fffffffa   Relinquish: boss is not the receiver
;   1873 0 8400006d 8400006d fffffffa   boss runs crew
;   1877 1 84000076 84000060 fffffffa   Relinquish: crew has not retrieved this one
;   1881 1 84000077 84000060 fffffffe   Reclaim: R1 is 16
;   1885 1 84000077 84000060 fffffffe   Reclaim: handle 15 is free
;   1889 1 84000077 84000060 fffffffa   Reclaim: crew is not the sender
;   1892 1 8400006c 84000061 fffffffa   crew yields
;   1896 0 84000077 84000060 fffffffa   Reclaim: crew has it and has not relinquished
;   1899 0 84000070 84000060 ffffffff   no call
;   1902 0 84000075 84000060 ffffffff   no call
;   1904 0 0000006d 84000060 ffffffff   no call
;   end 1905 halted                     every case of the table gave the error that it names
