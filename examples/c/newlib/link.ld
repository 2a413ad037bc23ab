/* What newlib asks for beside ../link.ld: the heap, between the variables and the stacks. xtcc defines stack_size. */
SECTIONS
{
    heap_begin = ALIGN(ADDR(.bss) + SIZEOF(.bss), 16);
    heap_end = 0x40000000 - 2 * stack_size;
}
INSERT AFTER .bss;
