/* Refuses one request for memory, or all from one on, of the program that it is loaded into (LD_PRELOAD).
 *
 *   REFUSE=N        the Nth call of malloc or realloc answers NULL
 *   REFUSE_ON=1     each later one too
 *   REFUSE_COUNT=F  the first eight bytes of the file F, which must be there, count the calls
 *
 * tests/want_of_memory.py builds and uses it. */
#define _GNU_SOURCE
#include <errno.h>
#include <fcntl.h>
#include <stdatomic.h>
#include <stdlib.h>
#include <sys/mman.h>

extern void *__libc_malloc(size_t);
extern void *__libc_realloc(void *, size_t);

static atomic_long own;
static atomic_long *calls = &own;
static long refused, on;

__attribute__((constructor)) static void begin(void)
{
    const char *number = getenv("REFUSE"), *name = getenv("REFUSE_COUNT");
    int file = name ? open(name, O_RDWR) : -1;
    if (file >= 0) {
        void *shared = mmap(NULL, sizeof(atomic_long), PROT_READ | PROT_WRITE, MAP_SHARED, file, 0);
        if (shared != MAP_FAILED)
            calls = shared;
    }
    refused = number ? atol(number) : 0;
    on = getenv("REFUSE_ON") != NULL;
    atomic_store(calls, 0);
}

static int is_refused(void)
{
    long call = atomic_fetch_add(calls, 1) + 1;
    return refused && (call == refused || (on && call > refused));
}

void *malloc(size_t size)
{
    if (is_refused()) {
        errno = ENOMEM;
        return NULL;
    }
    return __libc_malloc(size);
}

void *realloc(void *old, size_t size)
{
    if (is_refused()) {
        errno = ENOMEM;
        return NULL;
    }
    return __libc_realloc(old, size);
}
