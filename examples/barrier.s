# Both cores begin at `both` and meet at a barrier twice. Each core adds 1 to `count`, and waits there until it is 2; then it
# clears `count` for the next time. That is not right in every order: docs/WORKSHEET.md.

.seg 0x3FFB0000
count:  .word 0                 # how many cores have come

.seg 0x400D0000
.entry both
.literal_position
both:   l32r a2, =count
        movi a6, 2              # how often they still meet
come:   l32ai a3, a2, 0
        wsr a3, scompare1
        addi a4, a3, 1
        s32c1i a4, a2, 0        # stores count + 1 if count is still what it was
        bne a4, a3, come
wait:   l32ai a3, a2, 0
        bnei a3, 2, wait
        movi a4, 0
        s32ri a4, a2, 0
        addi a6, a6, -1
        bnez a6, come
        movi a2, 0
        break 1, 15
