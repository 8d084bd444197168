/* Refuses growths of memory, counted from 1 at the start of main: the Nth alone where REFUSE_ONE
 * says N, all from the Nth on where REFUSE_FROM says it. At exit it writes how many it has refused
 * to the file that REFUSED_TO names. Loaded before libc. */
#define _GNU_SOURCE
#include <dlfcn.h>
#include <errno.h>
#include <stdatomic.h>
#include <stdio.h>
#include <stdlib.h>

#define NEXT(name) (__typeof__(&name))dlsym(RTLD_NEXT, #name)

static atomic_long asked;
static atomic_long refused;
static atomic_int started;
static long one;
static long from;

static long number_in(const char *name)
{
    const char *said = getenv(name);
    return said ? atol(said) : 0;
}

static int is_refused(void)
{
    if (!atomic_load(&started))
        return 0;
    long number = atomic_fetch_add(&asked, 1) + 1;
    if (number != one && (from == 0 || number < from))
        return 0;
    atomic_fetch_add(&refused, 1);
    errno = ENOMEM;
    return 1;
}

void *malloc(size_t size)
{
    return is_refused() ? NULL : (NEXT(malloc))(size);
}

void *calloc(size_t count, size_t size)
{
    return is_refused() ? NULL : (NEXT(calloc))(count, size);
}

void *realloc(void *block, size_t size)
{
    return is_refused() ? NULL : (NEXT(realloc))(block, size);
}

void *aligned_alloc(size_t alignment, size_t size)
{
    return is_refused() ? NULL : (NEXT(aligned_alloc))(alignment, size);
}

int posix_memalign(void **block, size_t alignment, size_t size)
{
    return is_refused() ? ENOMEM : (NEXT(posix_memalign))(block, alignment, size);
}

/* Tells how many growths were refused. What it takes itself isn't refused. */
static void tell(void)
{
    if (!atomic_exchange(&started, 0))
        return;
    const char *name = getenv("REFUSED_TO");
    FILE *told = name ? fopen(name, "w") : NULL;
    if (!told)
        return;
    fprintf(told, "%ld\n", atomic_load(&refused));
    fclose(told);
}

/* A program may also end by this, past what atexit was given. */
void _exit(int status)
{
    tell();
    (NEXT(_exit))(status);
    __builtin_unreachable();
}

static int (*program)(int, char **, char **);

static int counted_main(int count, char **words, char **environment)
{
    atexit(tell);
    one = number_in("REFUSE_ONE");
    from = number_in("REFUSE_FROM");
    atomic_store(&started, 1);
    return program(count, words, environment);
}

/* libc starts a program by this: the program's main is wrapped. */
int __libc_start_main(int (*main)(int, char **, char **), int count, char **words,
                      void (*begin)(void), void (*end)(void), void (*unload)(void), void *stack)
{
    program = main;
    return (NEXT(__libc_start_main))(counted_main, count, words, begin, end, unload, stack);
}
