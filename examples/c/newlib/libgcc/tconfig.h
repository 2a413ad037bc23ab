/* libgcc2.c asks for this file; all is in tm.h. */
