/* What GCC's libgcc2.c asks for of the target and of the C library. */
#include <stddef.h>
#define BITS_PER_UNIT 8
#define MIN_UNITS_PER_WORD 4
#define UNITS_PER_WORD 4
#define HAS_INIT_SECTION
_Noreturn void abort(void);
