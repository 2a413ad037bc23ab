/* What newlib asks of a system: output goes to UART0, input ends at once, the heap lies between the variables and the
   stacks, and a program ends by a BREAK. There is no file, process or clock: those calls fail with ENOSYS. */
#include <errno.h>
#include <signal.h>
#include <stddef.h>
#include <stdint.h>
#include <stdlib.h>
#include <sys/stat.h>
#include <sys/types.h>
#include <xt.h>
#undef errno
extern int errno;

/* ---- Beginning and end. */

typedef void constructor(void);
extern constructor *constructors[], *constructors_end[];
int __real_main(int argc, char **argv);

/* start.s calls this in the place of main: the linker's --wrap. */
int __wrap_main(int argc, char **argv)
{
    for (constructor **each = constructors; each < constructors_end; each++)
        (*each)();
    exit(__real_main(argc, argv));
}

void _exit(int code)
{
    for (;;) /* A branch, so that `uses` names a code that nobody set. */
        __asm__ volatile("mov a2, %0\n\tbeqz a2, 1f\n1:\tbreak 1, 15" ::"r"(code) : "a2");
}

/* The default of a signal that is raised, as abort raises SIGABRT. */
int _kill(int process, int signal)
{
    (void)process;
    if (signal != SIGABRT)
        _exit(128 + signal);
    for (;;)
        __asm__ volatile("break 1, 14");
}

int _getpid(void)
{
    return 1;
}

/* ---- The three streams. */

int _write(int stream, const char *bytes, int count)
{
    if (stream != 1 && stream != 2) {
        errno = EBADF;
        return -1;
    }
    for (int i = 0; i < count; i++)
        UART0_TX = (uint8_t)bytes[i];
    return count;
}

int _read(int stream, char *bytes, int count)
{
    (void)bytes, (void)count;
    if (stream == 0)
        return 0;
    errno = EBADF;
    return -1;
}

/* A terminal, so that newlib sends each line when it ends. */
int _isatty(int stream)
{
    if (stream >= 0 && stream <= 2)
        return 1;
    errno = EBADF;
    return 0;
}

int _fstat(int stream, struct stat *about)
{
    if (!_isatty(stream))
        return -1;
    *about = (struct stat){.st_mode = S_IFCHR, .st_blksize = 256};
    return 0;
}

int _close(int stream)
{
    if (_isatty(stream))
        return 0;
    return -1;
}

/* ---- The heap. */

extern char heap_begin[], heap_end[];

void *_sbrk(ptrdiff_t more)
{
    static char *end = heap_begin;
    char *before = end;
    if (more > heap_end - end || more < heap_begin - end) {
        errno = ENOMEM;
        return (void *)-1;
    }
    end += more;
    return before;
}

/* malloc and free of both cores: the core that has the lock, plus 1, and how often it took it. */
static volatile uint32_t owner;
static int depth;

void __malloc_lock(struct _reent *state)
{
    uint32_t me = core_number() + 1;
    (void)state;
    if (load_acquire(&owner) != me)
        while (compare_and_swap(&owner, 0, me) != 0)
            ;
    depth++;
}

void __malloc_unlock(struct _reent *state)
{
    (void)state;
    if (--depth == 0)
        store_release(&owner, 0);
}

/* ---- What there is not. */

#define MISSING(name)    \
    int name(void)       \
    {                    \
        errno = ENOSYS;  \
        return -1;       \
    }
MISSING(_execve)
MISSING(_fcntl)
MISSING(_fork)
MISSING(_gettimeofday)
MISSING(_link)
MISSING(_lseek)
MISSING(_mkdir)
MISSING(_open)
MISSING(_rename)
MISSING(_stat)
MISSING(_times)
MISSING(_unlink)
MISSING(_wait)
