# A comparison that is kept in a Boolean register and used three times: the greater of two numbers.
#
#   xt asm < boolean.s > boolean.img
#   xt run --turns1 0 --trace < boolean.img
#
# The sixteen Boolean registers b0 to b15 are the bits of the special register BR, which opens with 0. Here a branch compares,
# and ANDBC or ORBC keeps what it found: `b0 and not b0` is 0 and `b0 or not b0` is 1, whatever b0 holds. Then MOVF and MOVT
# choose one of two registers without a jump, and BT branches.
#
# a4 ends with 103: the greater number is 3, which stands in a3, so 100 is added. With 7 in a2 it would end with 7.

.seg 0x400D0000
.entry main

main:   movi a2, -5
        movi a3, 3
        bge a2, a3, ge
        andbc b1, b0, b0        # a2 < a3: b1 is 0
        j on
ge:     orbc b1, b0, b0         # a2 >= a3: b1 is 1

on:     movf a4, a3, b1         # where b1 is 0, a4 is a3
        movt a4, a2, b1         # where b1 is 1, a4 is a2
        bt b1, done             # where b1 is 0, 100 more
        addi a4, a4, 100
done:   break 1, 15
