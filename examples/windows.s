# The worked program of docs/STACK.md with a value of its own in each register that a handler saves.
#
#   bin/xt asm examples/windows.s examples/handlers.s > windows.img
#   bin/xt run --turns1 0 --trace windows.img
#
# `main` calls `f` with 5, and `f` calls itself with one less while that is not 0: five calls by 12. `main` has no ENTRY and is the
# opening frame itself. Before its call, register K of `main` holds 70K, and in `f` register K holds N0K where N is what `f` was
# called with, K in hexadecimal: so a word of the ring or of the stack says whose it is. a0 of `f` is its return address, a1 of each
# is its stack pointer, and a2 of `f` is N itself.
#
# The fifth ENTRY leaves room in the ring for a0 to a3 of its frame only. The next instruction that names a higher register, the
# first SLLI of the last `f`, comes when `main` has to leave: the handler stores a0 to a11 of `main`. They come back when the first
# `f` returns. Then `main` adds them up: 700 + 702 + .. + 70B is 4D41 without the stack pointer, and a1 is 3FFF7FC0 again.

.seg 0x400D0000
.entry main

main:   movi a0, 0x700
        movi a2, 0x702
        movi a3, 0x703
        movi a4, 0x704
        movi a5, 0x705
        movi a6, 0x706
        movi a7, 0x707
        movi a8, 0x708
        movi a9, 0x709
        movi a10, 0x70A
        movi a11, 0x70B
        movi a14, 5             # a2 of f
        call12 f                # overwrites a12 of main, which no handler saves
        add a12, a0, a2
        add a12, a12, a3
        add a12, a12, a4
        add a12, a12, a5
        add a12, a12, a6
        add a12, a12, a7
        add a12, a12, a8
        add a12, a12, a9
        add a12, a12, a10
        add a12, a12, a11
        break 1, 15

.align 4
f:      entry a1, 48
        slli a3, a2, 8          # N00
        addi a4, a3, 4
        addi a5, a3, 5
        addi a6, a3, 6
        addi a7, a3, 7
        addi a8, a3, 8
        addi a9, a3, 9
        addi a10, a3, 10
        addi a11, a3, 11
        addi a3, a3, 3
        addi a14, a2, -1
        beqz a14, out
        call12 f
out:    retw
