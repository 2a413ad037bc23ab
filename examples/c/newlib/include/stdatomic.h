/* The compiler's header first: that of examples/c/include does not find it from here. */
#include_next <stdatomic.h>
#include "../../include/stdatomic.h"
