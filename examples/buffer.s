# Core 0 gives the numbers 1 to 4 to core 1, which adds them up, through a buffer of two words. Core 0 waits while the buffer
# is full, and core 1 while it is empty. That is not right in every order: docs/WORKSHEET.md.

.seg 0x3FFB0000
slots:  .word 0, 0              # number N goes into slot (N - 1) mod 2
put:    .word 0                 # how many numbers core 0 has put in
taken:  .word 0                 # how many core 1 has taken out
sum:    .word 0

.seg 0x400D0000
.entry core0
.literal_position
core0:  l32r a2, =slots
        movi a3, 0              # how many are put in
fill:   l32ai a4, a2, 12
        sub a4, a3, a4          # how many are in the buffer
        bgei a4, 3, fill        # it is full
        extui a5, a3, 0, 1
        addx4 a5, a5, a2        # the slot
        addi a3, a3, 1
        s32i a3, a5, 0
        s32ri a3, a2, 8
        bnei a3, 4, fill
        movi a2, 0
        break 1, 15

.align 4
.literal_position
core1:  l32r a2, =slots
        movi a3, 0              # how many are taken out
        movi a6, 0              # their sum
take:   l32ai a4, a2, 8
        beq a4, a3, take        # it is empty
        extui a5, a3, 0, 1
        addx4 a5, a5, a2
        l32i a4, a5, 0
        add a6, a6, a4
        addi a3, a3, 1
        s32ri a3, a2, 12
        bnei a3, 4, take
        s32i a6, a2, 16
        movi a2, 0
        break 1, 15
