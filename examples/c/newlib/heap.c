/* A heap that finds mistakes, which `xtcc --heap` puts in place of newlib's (docs/C.md). It makes a block unknown for
   `uses` when malloc gives it, and again when free takes it. So `bin/why` names the first use of a word that nobody set,
   or that is freed. Behind each block are ZONE bytes of FILL: free, realloc and the end of the program look whether they
   are still there. A freed block is used again only after KEPT bytes more were freed. */
#include <errno.h>
#include <reent.h>
#include <stddef.h>
#include <stdint.h>
#include <stdlib.h>
#include <string.h>

#define ZONE 8
#define FILL 0xA5
#define KEPT 32768
#define IN_USE 0x4B4C4221 /* no text and no likely number */
#define FREED 0x44455246

struct block {
    void *whole; /* what newlib gave, with this head and the zone */
    size_t size;
    struct block *next, *last; /* in use: its neighbors; freed: the one that was freed next */
    uint32_t spare;            /* so that the block has the alignment of newlib */
    uint32_t state;            /* right before the block */
};

static struct block used = {.next = &used, .last = &used};
static struct block *oldest, *newest; /* the freed ones */
static size_t kept;

void heap_forget(void *begin, void *end);
void *__real__malloc_r(struct _reent *state, size_t size);
void __real__free_r(struct _reent *state, void *whole);
void __malloc_lock(struct _reent *state);
void __malloc_unlock(struct _reent *state);
int _write(int stream, const char *bytes, int count);
void __real__exit(int code) __attribute__((noreturn));

static char *bytes_of(struct block *it)
{
    return (char *)(it + 1);
}

static struct block *block_of(void *bytes)
{
    return (struct block *)bytes - 1;
}

/* Ends the program after a line: `bin/why` then shows the calls. */
static __attribute__((noreturn)) void heap_fault(const char *bytes, const char *said)
{
    char text[] = "heap: the block at 00000000 ";
    uintptr_t left = (uintptr_t)bytes;
    for (int i = 26; i > 18; i--, left >>= 4)
        text[i] = "0123456789ABCDEF"[left & 15];
    _write(2, text, sizeof text - 1);
    _write(2, said, (int)strlen(said));
    abort();
}

static void check_zone(struct block *it)
{
    const unsigned char *zone = (unsigned char *)bytes_of(it) + it->size;
    for (int i = 0; i < ZONE; i++)
        if (zone[i] != FILL)
            heap_fault(bytes_of(it), "was written behind its end\n");
}

static void check(struct block *it)
{
    if (it->state == FREED)
        heap_fault(bytes_of(it), "is freed already\n");
    if (it->state != IN_USE)
        heap_fault(bytes_of(it), "is none of malloc, or was written before its begin\n");
    check_zone(it);
}

static void forget(struct block *it)
{
    heap_forget(bytes_of(it), bytes_of(it) + (it->size + 3) / 4 * 4);
}

void *__wrap__memalign_r(struct _reent *state, size_t align, size_t size)
{
    if (align < 8)
        align = 8;
    size_t more = align - 8 + sizeof(struct block) + ZONE;
    char *whole = size > SIZE_MAX - more ? NULL : __real__malloc_r(state, size + more);
    if (whole == NULL) {
        errno = ENOMEM;
        return NULL;
    }
    char *bytes = (char *)(((uintptr_t)whole + sizeof(struct block) + align - 1) / align * align);
    struct block *it = block_of(bytes);
    __malloc_lock(state);
    *it = (struct block){.whole = whole, .size = size, .next = used.next, .last = &used, .state = IN_USE};
    it->next->last = it;
    used.next = it;
    __malloc_unlock(state);
    forget(it);
    memset(bytes + size, FILL, ZONE);
    return bytes;
}

void *__wrap__malloc_r(struct _reent *state, size_t size)
{
    return __wrap__memalign_r(state, 8, size);
}

void *__wrap__calloc_r(struct _reent *state, size_t count, size_t size)
{
    size_t all;
    if (__builtin_mul_overflow(count, size, &all)) {
        errno = ENOMEM;
        return NULL;
    }
    void *bytes = __wrap__malloc_r(state, all);
    return bytes == NULL ? NULL : memset(bytes, 0, all);
}

void __wrap__free_r(struct _reent *state, void *bytes)
{
    if (bytes == NULL)
        return;
    struct block *it = block_of(bytes);
    __malloc_lock(state);
    check(it);
    it->next->last = it->last;
    it->last->next = it->next;
    it->state = FREED;
    it->next = NULL;
    forget(it);
    *(oldest ? &newest->next : &oldest) = it;
    newest = it;
    kept += it->size;
    while (kept > KEPT) {
        it = oldest;
        oldest = it->next;
        kept -= it->size;
        check_zone(it);
        it->state = 0;
        __real__free_r(state, it->whole);
    }
    __malloc_unlock(state);
}

void *__wrap__realloc_r(struct _reent *state, void *bytes, size_t size)
{
    if (bytes == NULL)
        return __wrap__malloc_r(state, size);
    check(block_of(bytes));
    void *other = __wrap__malloc_r(state, size);
    if (other != NULL) {
        size_t before = block_of(bytes)->size;
        memcpy(other, bytes, before < size ? before : size);
        __wrap__free_r(state, bytes);
    }
    return other;
}

/* The end of the program: the zones of all blocks. */
__attribute__((noreturn)) void __wrap__exit(int code)
{
    static int ends;
    if (!ends++) {
        for (struct block *it = used.next; it != &used; it = it->next)
            check_zone(it);
        for (struct block *it = oldest; it != NULL; it = it->next)
            check_zone(it);
    }
    __real__exit(code);
}
