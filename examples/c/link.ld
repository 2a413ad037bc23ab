/* Where a C program's parts go in the memory map: vectors and start-up code in instruction memory, code in
   the flash of instructions, constants in the flash of data, variables in data memory below the two stacks,
   which begin at 3FFF0000. */
ENTRY(_start)
MEMORY
{
    iram (rx) : ORIGIN = 0x40080000, LENGTH = 0x20000
    irom (rx) : ORIGIN = 0x400D0000, LENGTH = 0x330000
    drom (r)  : ORIGIN = 0x3F400000, LENGTH = 0x400000
    dram (rw) : ORIGIN = 0x3FFB0000, LENGTH = 0x40000
}
PHDRS
{
    iram PT_LOAD FLAGS(5);
    irom PT_LOAD FLAGS(5);
    drom PT_LOAD FLAGS(4);
    dram PT_LOAD FLAGS(6);
}
SECTIONS
{
    .iram : {
        KEEP(*(.vectors))
        . = 0x300; KEEP(*(.kernel_vector))
        . = 0x340; KEEP(*(.user_vector))
        . = 0x3C0; KEEP(*(.double_vector))
        . = 0x400; KEEP(*(.start))
        *(.iram .iram.*)
    } > iram :iram
    .text : { *(.literal .literal.* .text .text.*) } > irom :irom
    .rodata : { *(.rodata .rodata.*) } > drom :drom
    .ctors : { constructors = .; KEEP(*(.ctors .ctors.*)) constructors_end = .; } > drom :drom
    .data : { *(.data .data.*) } > dram :dram
    .bss : { *(.bss .bss.* COMMON) } > dram :dram
}
