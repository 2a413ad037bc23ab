# Main waits with WAITI until the handler of timer 0 has set the word at ready. If the timer fires after main has loaded
# ready, and before WAITI, the handler returns, main executes WAITI, and nothing ends it any more: the wake-up is lost.
# docs/OUTCOMES.md has what `outcomes --any-time` says of it, and the repair.

.seg 0x3FFB0000
ready:  .word 0

.seg 0x40080340
        j handler

.seg 0x40080400
.literal_position
handler:
        wsr a3, excsave1        # the handler uses a2 and a3, and gives them back
        wsr a2, excsave2
        movi a2, 0
        wsr a2, intenable       # the timer comes no more
        l32r a2, =ready
        movi a3, 1
        s32i a3, a2, 0
        rsr a2, excsave2
        rsr a3, excsave1
        rfe

.seg 0x400D0000
.entry main
.literal_position
main:   rsr a4, ccount
        addi a4, a4, 50
        wsr a4, ccompare0       # arms timer 0
        movi a4, 64
        wsr a4, intenable
        l32r a2, =ready
        rsil a6, 0
wait:   l32i a4, a2, 0
        bnez a4, done
        waiti 0                 # if the timer fires after the load and before this, nothing ends it
        j wait
done:   rsil a6, 3
        break 1, 15
        .align 4
other:  break 1, 15
