# Each core loads a word and then stores 1 into that which the other core loads: core 0 loads x and stores y, core 1
# loads y and stores x. docs/MEMORY_MODEL.md has what can come out.

.seg 0x3FFB0000
x:      .word 0
y:      .word 0
first:  .word 0                 # what core 0 loaded
second: .word 0                 # what core 1 loaded

.seg 0x400D0000
.entry main
.literal_position
main:   l32r a2, =x
        movi a3, 1
        l32i a4, a2, 0          # x
        s32i a3, a2, 4          # y = 1
        s32i a4, a2, 8
        break 1, 15

.align 32                       # core 1 begins here: --entry1 0x400D0024
.literal_position
other:  l32r a2, =x
        movi a3, 1
        l32i a4, a2, 4          # y
        s32i a3, a2, 0          # x = 1
        s32i a4, a2, 12
        break 1, 15
