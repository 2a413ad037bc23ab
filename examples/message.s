# Core 0 stores a message and then a flag; core 1 loads the flag and then the message. Nothing orders these accesses by
# release and acquire, so they race. docs/MEMORY_MODEL.md has what can come out.

.seg 0x3FFB0000
data:   .word 0                 # the message
flag:   .word 0
first:  .word 0                 # the flag as core 1 loaded it
second: .word 0                 # the message as core 1 loaded it

.seg 0x400D0000
.entry main
.literal_position
main:   l32r a2, =data
        movi a3, 1
        s32i a3, a2, 0          # the message
        s32i a3, a2, 4          # the flag
        break 1, 15

.align 32                       # core 1 begins here: --entry1 0x400D0024
.literal_position
other:  l32r a2, =data
        l32i a4, a2, 4          # the flag
        l32i a5, a2, 0          # the message
        s32i a4, a2, 8
        s32i a5, a2, 12
        break 1, 15
