# Core 0 takes lock a and then lock b, core 1 first b and then a: in some orders each waits for the other for ever.
# docs/OUTCOMES.md.

.seg 0x3FFB0000
a:      .word 0
b:      .word 0

.seg 0x400D0000
.entry core0
.literal_position
core0:  l32r a2, =a
        l32r a3, =b
        j both

.align 32                       # core 1 begins here: --entry1 0x400D0028
.literal_position
core1:  l32r a2, =b
        l32r a3, =a

both:   movi a4, 0              # takes the lock at a2, and then the one at a3
        wsr a4, scompare1
first:  movi a4, 1
        s32c1i a4, a2, 0
        bnez a4, first
second: movi a4, 1
        s32c1i a4, a3, 0
        bnez a4, second
        movi a4, 0
        s32ri a4, a3, 0
        s32ri a4, a2, 0
        break 1, 15
