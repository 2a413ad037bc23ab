# The six window handlers, for a text of your own:
#
#   bin/xt asm mine.s examples/handlers.s > mine.img
#
# They stand 64 bytes apart from VECBASE on, which is 40080000. examples/calls.s says what they do, and docs/STACK.md why.

.seg 0x40080000

# overflow by 4, at 40080000
        s32e a0, a5, -16
        s32e a1, a5, -12
        s32e a2, a5, -8
        s32e a3, a5, -4
        rfwo

.align 64                       # underflow by 4, at 40080040
        l32e a0, a5, -16
        l32e a1, a5, -12
        l32e a2, a5, -8
        l32e a3, a5, -4
        rfwu

.align 64                       # overflow by 8, at 40080080
        s32e a0, a9, -16
        l32e a0, a1, -12        # a0 is saved, and takes the caller's stack pointer
        s32e a1, a9, -12
        s32e a2, a9, -8
        s32e a3, a9, -4
        s32e a4, a0, -32
        s32e a5, a0, -28
        s32e a6, a0, -24
        s32e a7, a0, -20
        rfwo

.align 64                       # underflow by 8, at 400800C0
        l32e a0, a9, -16
        l32e a1, a9, -12
        l32e a2, a9, -8
        l32e a7, a1, -12        # the caller's stack pointer
        l32e a3, a9, -4
        l32e a4, a7, -32
        l32e a5, a7, -28
        l32e a6, a7, -24
        l32e a7, a7, -20
        rfwu

.align 64                       # overflow by 12, at 40080100
        s32e a0, a13, -16
        l32e a0, a1, -12
        s32e a1, a13, -12
        s32e a2, a13, -8
        s32e a3, a13, -4
        s32e a4, a0, -48
        s32e a5, a0, -44
        s32e a6, a0, -40
        s32e a7, a0, -36
        s32e a8, a0, -32
        s32e a9, a0, -28
        s32e a10, a0, -24
        s32e a11, a0, -20
        rfwo

.align 64                       # underflow by 12, at 40080140
        l32e a0, a13, -16
        l32e a1, a13, -12
        l32e a2, a13, -8
        l32e a11, a1, -12
        l32e a3, a13, -4
        l32e a4, a11, -48
        l32e a5, a11, -44
        l32e a6, a11, -40
        l32e a7, a11, -36
        l32e a8, a11, -32
        l32e a9, a11, -28
        l32e a10, a11, -24
        l32e a11, a11, -20
        rfwu
