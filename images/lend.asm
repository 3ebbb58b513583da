; lend.asm: the lender goes without its page while the borrower has it.
;
; Guest 0, lender, writes a word to its page tool and lends it to guest 1, borrower. Other than with a share, lender
; cannot reach the page from there on; it stays the owner, but can neither lend it once more nor reclaim it while
; borrower has it. Borrower reads the word and writes two of its own. It relinquishes, lender reclaims and finds them.
;
; Look at the two errors in the middle, and at the last column of the last lines: lender shows what borrower wrote.
; What happens when lender reaches for the page in the meantime is in fault-load-no-access.asm: it ends the run.

LENDER = 0
BORROWER = 1

LENDER_CODE = 0
BORROWER_CODE = 1
LENDER_TX = 2
LENDER_RX = 3
BORROWER_TX = 4
BORROWER_RX = 5
TOOL = 6                            ; the page that is lent

LENDERS_WORD = 0x1111
BORROWERS_FIRST = 0x2222
BORROWERS_SECOND = 0x3333

DESCRIPTOR_WORDS = 3
HANDLE = 0                          ; nothing else is sent, so it is the lowest one

machine guests 2 pages 7
guest LENDER   tx LENDER_TX   rx LENDER_RX   start lender
guest BORROWER tx BORROWER_TX rx BORROWER_RX start borrower
page LENDER_CODE   owner LENDER
page BORROWER_CODE owner BORROWER
page TOOL          owner LENDER

at @LENDER_CODE
lender: set  r3 @TOOL
        movi r4 LENDERS_WORD
        str  r4 r3                  ; word 0; before the Lend, since lender cannot do it behind it
        movi r1 DESCRIPTOR_WORDS
        call Lend                   ; from here on lender owns the page but cannot reach it
        movi r1 BORROWER
        call Run                    ; borrower retrieves and reads
        movi r1 DESCRIPTOR_WORDS
        call Lend                   ; the same page again. DENIED: lender owns it, but has no access to it
        movi r1 HANDLE
        call Reclaim                ; DENIED: borrower has retrieved it and not relinquished
        movi r2 0                   ; only so that the lines below do not show the old error
        movi r1 BORROWER
        call Run                    ; borrower writes and relinquishes
        movi r1 HANDLE
        call Reclaim                ; now it works: the page is lender's alone, as before the Lend
        ldr  r2 r3                  ; r3 still holds the address of word 0
        call Yield                  ; shows it
        addi r3 1
        ldr  r2 r3
        call Yield                  ; shows word 1
        halt

at @LENDER_TX                       ; where Lend looks for what to lend, and to whom
        descriptor lend BORROWER TOOL

at @BORROWER_CODE
borrower:
        movi r1 HANDLE
        call Retrieve               ; from here on borrower can reach the page, and nobody else can
        set  r3 @TOOL
        ldr  r2 r3                  ; what lender wrote
        call Yield                  ; shows it, and lets lender try its luck
        movi r4 BORROWERS_FIRST
        str  r4 r3                  ; over lender's word
        addi r3 1
        movi r4 BORROWERS_SECOND
        str  r4 r3                  ; beside it
        movi r1 HANDLE
        call Relinquish             ; nobody can reach the page now, until lender reclaims it
        call Yield

budget 100

; What bench prints, and why:
;   8 0 84000072 84000061 00000000    lender's Lend: success, handle 0
;   12 0 8400006d 8400006d 00000000   lender runs borrower
;   16 1 84000074 84000061 00000000   borrower retrieves
;   22 1 8400006c 84000061 00001111   borrower shows lender's word
;   26 0 84000072 84000060 fffffffa   lender lends again: DENIED
;   30 0 84000077 84000060 fffffffa   lender reclaims too early: DENIED
;   35 0 8400006d 8400006d 00000000   lender runs borrower
;   44 1 84000076 84000061 00001111   borrower has written and relinquishes
;   47 1 8400006c 84000061 00001111   borrower yields
;   51 0 84000077 84000061 00000000   lender reclaims
;   55 0 8400006c 84000061 00002222   word 0: borrower's first
;   60 0 8400006c 84000061 00003333   word 1: borrower's second
;   end 61 halted
