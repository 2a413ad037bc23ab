# The start-up code of a C program, for both cores: vectors, the entry, and the handlers of the timer, of MOVSP and of
# what nobody handles. It is assembled after lx6.inc, and link.ld puts each section at its place.
#
# Both cores begin at _start. Core 0 calls main with 0 and a null pointer, and core 1 main1 where the program has it.
# Each core ends by a BREAK:
#   BREAK 1, 15  a2 has what main or main1 returned, or what exit was given; 0 where there is no main1
#   BREAK 1, 14  abort
#   BREAK 1, 13  an exception that nobody handles, printed on UART0: a2 has EXCCAUSE, a3 the program counter at which
#                it came, and the special register EXCVADDR the address

# ---- The six window handlers, 64 bytes apart from 40080000 on. docs/STACK.md says what they do.

        .section .vectors, "ax"
# overflow by 4
        s32e a0, a5, -16
        s32e a1, a5, -12
        s32e a2, a5, -8
        s32e a3, a5, -4
        rfwo
        .balign 64
underflow4:
        l32e a0, a5, -16
        l32e a1, a5, -12
        l32e a2, a5, -8
        l32e a3, a5, -4
        rfwu
        .balign 64
# overflow by 8
        s32e a0, a9, -16
        l32e a0, a1, -12
        s32e a1, a9, -12
        s32e a2, a9, -8
        s32e a3, a9, -4
        s32e a4, a0, -32
        s32e a5, a0, -28
        s32e a6, a0, -24
        s32e a7, a0, -20
        rfwo
        .balign 64
underflow8:
        l32e a0, a9, -16
        l32e a1, a9, -12
        l32e a2, a9, -8
        l32e a7, a1, -12
        l32e a3, a9, -4
        l32e a4, a7, -32
        l32e a5, a7, -28
        l32e a6, a7, -24
        l32e a7, a7, -20
        rfwu
        .balign 64
# overflow by 12
        s32e a0, a13, -16
        l32e a0, a1, -12
        s32e a1, a13, -12
        s32e a2, a13, -8
        s32e a3, a13, -4
        s32e a4, a0, -48
        s32e a5, a0, -44
        s32e a6, a0, -40
        s32e a7, a0, -36
        s32e a8, a0, -32
        s32e a9, a0, -28
        s32e a10, a0, -24
        s32e a11, a0, -20
        rfwo
        .balign 64
underflow12:
        l32e a0, a13, -16
        l32e a1, a13, -12
        l32e a2, a13, -8
        l32e a11, a1, -12
        l32e a3, a13, -4
        l32e a4, a11, -48
        l32e a5, a11, -44
        l32e a6, a11, -40
        l32e a7, a11, -36
        l32e a8, a11, -32
        l32e a9, a11, -28
        l32e a10, a11, -24
        l32e a11, a11, -20
        rfwu

# ---- The vectors of general exceptions and of interrupts of level 1.

        .section .kernel_vector, "ax"
        j cause
        .section .user_vector, "ax"
        j cause
        .section .double_vector, "ax"
        j double

# ---- The entry.

        .section .start, "ax"
        .global _start, unhandled
        .weak main1, on_timer
        .literal_position
_start: entry a1, 32
        rsr a2, prid            # CDCD on core 0, ABAB on core 1
        bbsi a2, 13, second
        movi a10, 0             # argc and argv
        movi a11, 0
        call8 main
        mov a2, a10
        beqz a2, ended0         # the result decides something, so `uses` names one that nobody set
ended0: break 1, 15
second: movi a2, main1
        beqz a2, ended1
        callx8 a2
        mov a2, a10
        beqz a2, ended1
ended1: break 1, 15

# ---- General exceptions and interrupts of level 1. Of a0 to a3 only a0 and a1 are sure to have a value, in any
# function, so a0 goes into MISC0 first, and tells what came.

        .balign 4
cause:  wsr a0, misc0
        rsr a0, exccause
        beqi a0, 5, moves
        bnei a0, 4, unhandled
        movi a0, on_timer
        beqz a0, unhandled

# An interrupt of level 1, which only timer 0 is let make: all registers of the window are kept in the core's own
# part of `kept`, and on_timer is called with further interrupts of level 1 held off.

        rsr a0, prid
        bbsi a0, 13, other
        movi a0, kept
        j keep
other:  movi a0, kept + 76
keep:   s32i a2, a0, 8
        s32i a3, a0, 12
        mov a2, a0
        rsr a3, misc0
        s32i a3, a2, 0
        rsr a3, epc1
        s32i a3, a2, 64
        rsr a3, ps
        s32i a3, a2, 68
        rsr a3, sar
        s32i a3, a2, 72
        movi a3, 0x00040021     # PS: WOE, UM, INTLEVEL 1; EXCM is clear
        wsr a3, ps
        rsync
        s32i a4, a2, 16
        s32i a5, a2, 20
        s32i a6, a2, 24
        s32i a7, a2, 28
        s32i a8, a2, 32
        s32i a9, a2, 36
        s32i a10, a2, 40
        s32i a11, a2, 44
        s32i a12, a2, 48
        s32i a13, a2, 52
        s32i a14, a2, 56
        s32i a15, a2, 60
        _movi a3, 0             # `_` keeps it three bytes long
        wsr a3, intenable       # the timer comes no more, until timer_after lets it
        call4 on_timer          # a2 and a3 stay, as on_timer sees a4 as its a0
        l32i a4, a2, 16
        l32i a5, a2, 20
        l32i a6, a2, 24
        l32i a7, a2, 28
        l32i a8, a2, 32
        l32i a9, a2, 36
        l32i a10, a2, 40
        l32i a11, a2, 44
        l32i a12, a2, 48
        l32i a13, a2, 52
        l32i a14, a2, 56
        l32i a15, a2, 60
        l32i a3, a2, 68
        wsr a3, ps              # EXCM is set again
        rsync
        l32i a3, a2, 72
        wsr a3, sar
        l32i a3, a2, 64
        wsr a3, epc1
        l32i a0, a2, 0
        l32i a3, a2, 12
        l32i a2, a2, 8
        rfe

# Cause 5: a MOVSP finds that the registers of its function's caller are in memory. This goes on as an underflow would
# that returns to that caller: the window handler loads its registers, and RFWU goes back to the MOVSP. No other
# registers are in the ring, so those below a0 are free.

moves:  rsr a0, windowbase
        rotw -1                 # a4 was a0
        rsr a2, ps
        extui a3, a2, 8, 4
        xor a3, a3, a4
        slli a3, a3, 8
        xor a2, a2, a3
        wsr a2, ps              # OWB is the function's WINDOWBASE
        rsync
        rsr a4, misc0           # the return address: its two top bits are the size of the call
        bbci a4, 31, four
        rotw -1
        bbci a8, 30, eight
        rotw -1
        j underflow12
eight:  j underflow8
four:   j underflow4

# An exception that nobody handles: a line on UART0, in exception mode and with a0, a2 and a3 alone, since the stack
# may be what is broken.

# Sends the text at a2.
        .macro send
1:      l8ui a3, a2, 0
        beqz a3, 2f
        s32i a3, a0, 0
        addi a2, a2, 1
        j 1b
2:
        .endm
# Sends a2 as eight hexadecimal digits; MISC1 counts them.
        .macro send_word
        movi a3, 8
1:      wsr a3, misc1
        extui a3, a2, 28, 4
        slli a2, a2, 4
        addi a3, a3, -10
        bltz a3, 2f
        addi a3, a3, 7
2:      addi a3, a3, 58
        s32i a3, a0, 0
        rsr a3, misc1
        addi a3, a3, -1
        bnez a3, 1b
        .endm

double: rsr a2, depc
        j panic
unhandled:
        rsr a2, epc1
panic:  wsr a2, misc2
        movi a0, 0x3FF40000
        movi a2, began
        send
        rsr a0, exccause        # the text of this cause, in the list
        addi a0, a0, 1
        movi a2, causes
search: l8ui a3, a2, 0
        beq a3, a0, found
        beqz a3, found
skip:   addi a2, a2, 1
        l8ui a3, a2, 0
        bnez a3, skip
        addi a2, a2, 1
        j search
found:  addi a2, a2, 1
        movi a0, 0x3FF40000
        send
        movi a2, at
        send
        rsr a2, misc2
        send_word
        rsr a2, exccause        # causes 2, 3, 9, 28 and 29 have an address
        movi a3, 0x3000020C
        ssr a2
        srl a3, a3
        bbci a3, 0, ended
        movi a2, address
        send
        rsr a2, excvaddr
        send_word
ended:  movi a2, 10
        s32i a2, a0, 0
        rsr a2, exccause
        rsr a3, misc2
        break 1, 13

        .section .rodata.panic, "a"
began:  .asciz "panic: cause "
at:     .asciz " at "
address: .asciz ", address "
causes: .ascii "\001" ; .asciz "0 (illegal instruction)"
        .ascii "\002" ; .asciz "1 (syscall)"
        .ascii "\003" ; .asciz "2 (no code there)"
        .ascii "\004" ; .asciz "3 (load or store)"
        .ascii "\005" ; .asciz "4 (interrupt)"
        .ascii "\006" ; .asciz "5 (movsp)"
        .ascii "\007" ; .asciz "6 (division by 0)"
        .ascii "\012" ; .asciz "9 (alignment)"
        .ascii "\035" ; .asciz "28 (load)"
        .ascii "\036" ; .asciz "29 (store)"
        .byte 0
        .asciz "of another kind"

        .bss
        .balign 4
kept:   .space 152              # a0 to a15, EPC1, PS and SAR, of core 0 and of core 1
