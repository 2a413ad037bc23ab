# setjmp and longjmp for windows, with newlib's <setjmp.h>. The words of a jmp_buf:
#   0 to 3   a0 to a3 of the function that called setjmp
#   4 to 11  a4 to a7 where the call was a CALL8, and a4 to a11 where it was a CALL12
#   12       where 4 to 11 lie in memory
#   13       the return address of that call, whose two top bits are the call's size

# Lets the window handlers store the registers of all functions but the one that calls this: four calls of 12 registers
# go once around the ring of 64.
        .text
        .align 4
spill:  entry a1, 48
        call12 spill2
        retw
        .align 4
spill2: entry a1, 48
        call12 spill3
        retw
        .align 4
spill3: entry a1, 48
        call12 spill4
        retw
        .align 4
spill4: entry a1, 48
        movi a12, 0
        retw

# int setjmp(jmp_buf kept)
        .align 4
        .global setjmp
        .type setjmp, @function
setjmp: entry a1, 48
        call12 spill
        s32i a0, a2, 52
        addi a3, a1, -16        # a0 to a3 of the caller
        l32i a4, a3, 0
        l32i a5, a3, 4
        l32i a6, a3, 8
        l32i a7, a3, 12
        s32i a4, a2, 0
        s32i a5, a2, 4
        s32i a6, a2, 8
        s32i a7, a2, 12
        extui a3, a0, 30, 2
        slli a3, a3, 4          # 16 bytes for a CALL4, 32 for a CALL8, 48 for a CALL12
        addi a5, a5, -12        # the caller's stack pointer less 12: where its own caller's is
        l32i a5, a5, 0
        sub a5, a5, a3          # a4 and on of the caller end 16 bytes below that
        s32i a5, a2, 48
        addi a3, a3, -16
        addi a6, a2, 16
        j kept
keep:   l32i a4, a5, 0
        s32i a4, a6, 0
        addi a5, a5, 4
        addi a6, a6, 4
        addi a3, a3, -4
kept:   bnez a3, keep
        movi a2, 0
        retw
        .size setjmp, . - setjmp

# _Noreturn void longjmp(jmp_buf kept, int value)
# All frames leave the registers; the words go back to where the underflow handler finds them; and a return goes to
# where setjmp returned to.
        .align 4
        .global longjmp
        .type longjmp, @function
longjmp: entry a1, 48
        call12 spill
        l32i a4, a2, 0
        l32i a5, a2, 4
        l32i a6, a2, 8
        l32i a7, a2, 12
        addi a8, a1, -16
        s32i a4, a8, 0
        s32i a5, a8, 4
        s32i a6, a8, 8
        s32i a7, a8, 12
        l32i a0, a2, 52
        extui a4, a0, 30, 2
        slli a4, a4, 4
        addi a4, a4, -16
        l32i a5, a2, 48
        addi a6, a2, 16
        j back
bring:  l32i a7, a6, 0
        s32i a7, a5, 0
        addi a5, a5, 4
        addi a6, a6, 4
        addi a4, a4, -4
back:   bnez a4, bring
        movi a2, 1              # 1 in place of 0
        movnez a2, a3, a3
        retw
        .size longjmp, . - longjmp
