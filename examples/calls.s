# Nine calls, one inside the other: more frames than the ring of registers holds.
#
#   xt asm < calls.s > calls.img
#   xt dis --flow < calls.img
#
# `main` calls `f` with the number 8, and `f` calls itself with one less until the number is 0. Each frame takes eight registers
# more, so the ring of 64 has room for eight frames. With the opening frame and that of `main` there are eleven. So three times
# an instruction finds the ring full (at the `addi`, in the windows 14, 0 and 2), and the oldest frame goes to the stack. On the
# way back the frames of the first `f` and of `main` are fetched again; the opening frame, which went first, is never returned
# to. Core 0 stops after 102 turns, and 45 of them are stores and loads of the handlers.

# ---- The six window handlers.
#
# The registers form a ring of 64, of which a function sees 16. A CALL8 and the ENTRY behind it move the window on by eight
# registers, a CALL4 by four, a CALL12 by twelve. When the ring is full, the core enters an overflow handler before the
# instruction that would reach into another frame's registers, with the window moved to that frame. The handler writes that
# frame's registers to the stack and ends with RFWO; the instruction is then tried again. When a RETW comes to a frame whose
# registers are not in the ring, an underflow handler reads them back and ends with RFWU.
#
# The handlers stand 64 bytes apart from VECBASE on, which is 40080000. Each frame's a0 to a3 go to the 16 bytes below the stack
# pointer of the frame that it called, which that frame has in its a1: this is a5, a9 or a13 of the frame that is saved, as it
# called by 4, 8 or 12. Its further registers go to the area below the stack pointer of its own caller, which it finds at
# 12 below its own.

.seg 0x40080000

# overflow by 4, at 40080000
        s32e a0, a5, -16
        s32e a1, a5, -12
        s32e a2, a5, -8
        s32e a3, a5, -4
        rfwo

.align 64                       # underflow by 4, at 40080040
        l32e a0, a5, -16
        l32e a1, a5, -12
        l32e a2, a5, -8
        l32e a3, a5, -4
        rfwu

.align 64                       # overflow by 8, at 40080080
        s32e a0, a9, -16
        l32e a0, a1, -12        # a0 is saved, and takes the caller's stack pointer
        s32e a1, a9, -12
        s32e a2, a9, -8
        s32e a3, a9, -4
        s32e a4, a0, -32
        s32e a5, a0, -28
        s32e a6, a0, -24
        s32e a7, a0, -20
        rfwo

.align 64                       # underflow by 8, at 400800C0
        l32e a0, a9, -16
        l32e a1, a9, -12
        l32e a2, a9, -8
        l32e a7, a1, -12        # the caller's stack pointer
        l32e a3, a9, -4
        l32e a4, a7, -32
        l32e a5, a7, -28
        l32e a6, a7, -24
        l32e a7, a7, -20
        rfwu

.align 64                       # overflow by 12, at 40080100
        s32e a0, a13, -16
        l32e a0, a1, -12
        s32e a1, a13, -12
        s32e a2, a13, -8
        s32e a3, a13, -4
        s32e a4, a0, -48
        s32e a5, a0, -44
        s32e a6, a0, -40
        s32e a7, a0, -36
        s32e a8, a0, -32
        s32e a9, a0, -28
        s32e a10, a0, -24
        s32e a11, a0, -20
        rfwo

.align 64                       # underflow by 12, at 40080140
        l32e a0, a13, -16
        l32e a1, a13, -12
        l32e a2, a13, -8
        l32e a11, a1, -12
        l32e a3, a13, -4
        l32e a4, a11, -48
        l32e a5, a11, -44
        l32e a6, a11, -40
        l32e a7, a11, -36
        l32e a8, a11, -32
        l32e a9, a11, -28
        l32e a10, a11, -24
        l32e a11, a11, -20
        rfwu

# ---- The program.

.seg 0x400D0000
.entry main

main:   entry a1, 32            # a frame of 32 bytes on the stack; the core opens as if a CALL8 had come here
        movi a10, 8             # a10 here is a2 in the function that CALL8 calls
        call8 f
        break 1, 15             # the core stops

.align 4                        # a call's target is a multiple of 4
f:      entry a1, 32            # moves the window by 8 registers: the caller's a8 to a15 are now a0 to a7
        beqz a2, out
        addi a10, a2, -1        # here the ring may be full: a10 lies in the group after the next
        call8 f
out:    retw                    # back by as many registers as the call had moved
