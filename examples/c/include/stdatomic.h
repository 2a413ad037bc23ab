/* The compiler's <stdatomic.h>, without atomic_flag: for that it writes a plain load and a plain store, between which
   the other core may come. */
#ifndef XT_STDATOMIC_H
#define XT_STDATOMIC_H
#include_next <stdatomic.h>
_Bool no_atomic_flag(void) __attribute__((error("atomic_flag is not atomic on this machine: take an atomic_uint, or "
                                                "lock and unlock of <xt.h>")));
#undef atomic_flag_test_and_set
#undef atomic_flag_test_and_set_explicit
#undef atomic_flag_clear
#undef atomic_flag_clear_explicit
#define atomic_flag_test_and_set(flag) no_atomic_flag()
#define atomic_flag_test_and_set_explicit(flag, order) no_atomic_flag()
#define atomic_flag_clear(flag) ((void)no_atomic_flag())
#define atomic_flag_clear_explicit(flag, order) ((void)no_atomic_flag())
#endif
