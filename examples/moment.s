# Main and the handler of timer 0 each add to the word at count. If the timer fires between main's load and its store,
# the handler's addition is lost. docs/OUTCOMES.md has all that can come out.

.seg 0x3FFB0000
count:  .word 0
fired:  .word 0

.seg 0x40080340
        j handler

.seg 0x40080400
.literal_position
handler:
        wsr a3, excsave1        # the handler uses a2 and a3, and gives them back
        wsr a2, excsave2
        movi a2, 0
        wsr a2, intenable       # the timer comes no more
        l32r a2, =count
        l32i a3, a2, 0
        addi a3, a3, 1
        s32i a3, a2, 0          # count + 1
        l32i a3, a2, 4
        addi a3, a3, 1
        s32i a3, a2, 4          # fired + 1
        rsr a2, excsave2
        rsr a3, excsave1
        rfe

.seg 0x400D0000
.entry main
.literal_position
main:   rsr a4, ccount
        addi a4, a4, 50
        wsr a4, ccompare0       # arms timer 0
        movi a4, 64
        wsr a4, intenable
        l32r a2, =count
        movi a5, 3
        rsil a6, 0
again:  l32i a4, a2, 0
        addi a4, a4, 1          # if the timer fires here, the handler's addition is lost
        s32i a4, a2, 0
        addi a5, a5, -1
        bnez a5, again
        rsil a6, 3
        break 1, 15
        .align 4
other:  break 1, 15
