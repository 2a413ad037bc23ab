# Two cores that use one word of memory. docs/RECORDING.md reads a recording of this program byte by byte: two.rec is that
# recording, in which the bus served the accesses in the order of the page. A run of your own may have another order.
#
#   bin/xt asm examples/two.s > two.img
#   bin/xt run --turns0 20 --turns1 20 --entry1 0x400D001C two.img
#   bin/xt replay 'watch 0x3FFB0000; regs 0' examples/two.rec

        .seg 0x3FFB0000
word:   .word 7
        .seg 0x400D0000
        .entry main
        .literal_position
main:   l32r a2, =word
        movi a3, 300
        s16i a3, a2, 2
        l32i a4, a2, 0
        wsr a4, scompare1
        s32c1i a3, a2, 0
        nop
        break 1, 15
        .align 4
other:  l32r a2, =word
        s8i a2, a2, 4
        l8ui a3, a2, 5
        l32ai a5, a2, 0
        movi a6, 1
        break 1, 15
