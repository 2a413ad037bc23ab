# An interrupt of level 5 in the middle of a window handler.
#
#   bin/xt asm examples/nested.s examples/handlers.s > nested.img
#   bin/xt run --turns1 0 --trace nested.img
#
# Timer 2 is due after 32 turns. Exception mode holds back levels 1 and 3, but not level 5, so it comes in the middle of the first
# overflow: turn 29 is the window exception, 30 and 31 are the handler's first two instructions, and 32 is the interrupt. WINDOWBASE
# stands at the window that is being stored, so a0 to a3 are the window handler's: a2 is still to be stored. The code at the vector
# keeps it in EXCSAVE5 and puts it back.
#
#   turn 32 the interrupt, 33 wsr, 34 movi, 35 wsr, 36 rsr, 37 rfi, 38 the third instruction of the window handler
#
# Core 0 stops after 112 turns, and the stack is whole. Without `rsr a2, excsave5` the report says `frames breach Nested core 0 step
# 36`, which is the RFI. With `movi a2, 20` the interrupt is turn 20, outside any window handler.

# ---- The vector of level 5, at VECBASE + 240.

.seg 0x40080240

        wsr a2, excsave5        # keep a2
        movi a2, 0
        wsr a2, ccompare2       # a write of CCOMPARE2 clears the timer's bit of INTERRUPT
        rsr a2, excsave5        # a2 as it was
        rfi 5                   # to the instruction before which the interrupt came

# ---- The program: nine calls, one in another.

.seg 0x400D0000
.entry main
.literal_position

main:   entry a1, 32
        movi a2, 32
        wsr a2, ccompare2       # the timer is due when CCOUNT becomes 32, which is the end of turn 31
        l32r a3, =65536         # bit 16, timer 2
        wsr a3, intenable
        movi a10, 8
        call8 f
        break 1, 15

.align 4
f:      entry a1, 32
        beqz a2, out
        addi a10, a2, -1
        call8 f
out:    retw
