# The key of a table: a secret byte chooses which entry is loaded, and the address tells it.
# bin/xt run --turns1 0 --secret 0x3FFB0000:2 names the load, and docs/EXAMPLES.md says why.

.seg 0x3FFB0000
key:    .word 0x0203
table:  .word 10, 20, 30, 40
out:    .word 0

.seg 0x400D0000
.entry main
.literal_position
main:   l32r a2, =key
        l8ui a3, a2, 0
        l8ui a4, a2, 1
        xor a4, a3, a4          # computing with secrets gives nothing away
        s32i a4, a2, 20         # nor does storing them
        slli a5, a3, 2
        add a5, a5, a2
        l32i a6, a5, 4          # an address does
        break 1, 15
