/* The header of examples/c/include. */
#include "../../include/xt.h"
