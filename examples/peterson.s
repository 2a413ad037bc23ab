# Peterson's lock, of loads and stores alone: each core adds 1 to `count` under it. docs/OUTCOMES.md.

.seg 0x3FFB0000
want0:  .word 0
want1:  .word 0
last:   .word 0                 # the core that came first goes on
count:  .word 0

.seg 0x400D0000
.entry core0
.literal_position
core0:  l32r a2, =want0
        movi a3, 1
        s32i a3, a2, 0          # want0
        s32i a3, a2, 8          # last
wait0:  l32i a4, a2, 4
        beqz a4, add0
        l32i a4, a2, 8
        bnez a4, wait0
add0:   l32i a5, a2, 12
        addi a5, a5, 1
        s32i a5, a2, 12
        movi a3, 0
        s32i a3, a2, 0
        break 1, 15

.align 64                       # core 1 begins here: --entry1 0x400D0044
.literal_position
core1:  l32r a2, =want0
        movi a3, 1
        s32i a3, a2, 4          # want1
        movi a3, 0
        s32i a3, a2, 8          # last
wait1:  l32i a4, a2, 0
        beqz a4, add1
        l32i a4, a2, 8
        beqz a4, wait1
add1:   l32i a5, a2, 12
        addi a5, a5, 1
        s32i a5, a2, 12
        movi a3, 0
        s32i a3, a2, 4
        break 1, 15
