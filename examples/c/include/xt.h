/* What a C program of this machine may want beside the C library: UART0, the core's number, its counter and
   timer, and what both cores share: an exchange that both see as one step, a lock, and loads and stores that order
   what the cores do. */
#ifndef XT_H
#define XT_H
#include <stdint.h>

#define UART0_TX (*(volatile uint32_t *)0x3FF40000)

/* 0 or 1. */
static inline uint32_t core_number(void)
{
    uint32_t prid;
    __asm__ volatile("rsr %0, prid" : "=r"(prid));
    return prid >> 13 & 1;
}

/* The turns that this core has made. */
static inline uint32_t turns(void)
{
    uint32_t count;
    __asm__ volatile("rsr %0, ccount" : "=r"(count));
    return count;
}

/* Lets timer 0 of this core call on_timer after so many turns more (20 at least), once. on_timer may call this
   again. */
static inline void timer_after(uint32_t count)
{
    __asm__ volatile("wsr %0, ccompare0\n\twsr %1, intenable\n\trsync" ::"r"(turns() + count), "r"(64) : "memory");
}

/* Stores `next` in the word where it holds `want`, in one step, and answers what it held. */
static inline uint32_t compare_and_swap(volatile uint32_t *word, uint32_t want, uint32_t next)
{
    __asm__ volatile("wsr %2, scompare1\n\ts32c1i %0, %1, 0" : "+r"(next) : "r"(word), "r"(want) : "memory");
    return next;
}

/* What the word holds, and with it all that the other core stored before the `store_release` that put it there. */
static inline uint32_t load_acquire(const volatile uint32_t *word)
{
    uint32_t value;
    __asm__ volatile("l32ai %0, %1, 0" : "=r"(value) : "r"(word) : "memory");
    return value;
}

static inline void store_release(volatile uint32_t *word, uint32_t value)
{
    __asm__ volatile("s32ri %0, %1, 0" ::"r"(value), "r"(word) : "memory");
}

/* Waits until no core has the lock, a word that begins as 0, and takes it. */
static inline void lock(volatile uint32_t *word)
{
    while (compare_and_swap(word, 0, 1) != 0)
        ;
}

static inline void unlock(volatile uint32_t *word)
{
    store_release(word, 0);
}
#endif
