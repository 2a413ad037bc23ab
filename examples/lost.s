# Both cores begin at `both`, and each adds 1 to the word at x without a lock: one addition can be lost.
# docs/OUTCOMES.md has all that can come out.

.seg 0x3FFB0000
x:      .word 0

.seg 0x400D0000
.entry both
.literal_position
both:   l32r a2, =x
        l32i a3, a2, 0
        addi a3, a3, 1
        s32i a3, a2, 0
        break 1, 15
