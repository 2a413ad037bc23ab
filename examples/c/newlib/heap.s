# For heap.c, with windows.

# void heap_forget(uint32_t *begin, uint32_t *end): makes these words unknown for `uses`, each FEFEFEFE. It stores what
# a callee left in a register that is none of its results, which the strict discipline of `uses` takes for unknown
# (docs/UNDEFINED.md). The stack discipline knows this register, so it sees no breach here.
        .text
        .align 4
        .global heap_forget
        .type heap_forget, @function
heap_forget:
        entry a1, 32
        call8 heap_leave
        j 2f
1:      s32i a14, a2, 0
        addi a2, a2, 4
2:      bltu a2, a3, 1b
        retw
        .size heap_forget, . - heap_forget

        .align 4
        .type heap_leave, @function
heap_leave:
        entry a1, 32
        movi a6, 0xFEFEFEFE
        retw
        .size heap_leave, . - heap_leave
