# The program adds 1 to the word `count` twenty times, and a timer interrupt that comes again and again adds 1 as well. An
# interrupt between the load and the store of the program is lost: docs/WORKSHEET.md.

.seg 0x3FFB0000
count:  .word 0
ticks:  .word 0                 # how often the handler ran

# General exceptions and interrupts of level 1 come here, at VECBASE + 340.
.seg 0x4008033C
.literal_position
tick:   wsr a2, misc0           # keeps a2 and a3
        wsr a3, misc1
        rsr a3, ccount
        addi a3, a3, 31
        wsr a3, ccompare0       # the next interrupt; this clears the present one
        l32r a2, =count
        l32i a3, a2, 0
        addi a3, a3, 1
        s32i a3, a2, 0
        l32i a3, a2, 4
        addi a3, a3, 1
        s32i a3, a2, 4
        rsr a2, misc0
        rsr a3, misc1
        rfe

.seg 0x400D0000
.entry main
.literal_position
main:   entry a1, 32
        l32r a4, =count
        movi a2, 31
        wsr a2, ccompare0
        movi a2, 64             # timer 0
        wsr a2, intenable
        movi a5, 20
more:   l32i a3, a4, 0
        addi a3, a3, 1
        s32i a3, a4, 0
        addi a5, a5, -1
        bnez a5, more
        movi a2, 0
        wsr a2, intenable
        break 1, 15
