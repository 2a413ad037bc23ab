# Both cores begin at `both`, and each adds 1 to the word at x under a lock: the word becomes 2 in every order.
# docs/OUTCOMES.md.

.seg 0x3FFB0000
lock:   .word 0
x:      .word 0

.seg 0x400D0000
.entry both
.literal_position
both:   l32r a2, =lock
take:   movi a4, 0
        wsr a4, scompare1
        movi a4, 1
        s32c1i a4, a2, 0        # takes the lock if it is free
        bnez a4, take
        l32i a5, a2, 4
        addi a5, a5, 1
        s32i a5, a2, 4
        movi a4, 0
        s32ri a4, a2, 0         # gives it up
        break 1, 15
