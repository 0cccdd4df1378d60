/* Preloaded into a program, refuses one of its allocations: the one whose number, from 1, is in REFUSED_GROWTH.
   If it is 0 none is refused, and how many there were is written to the file that GROWTH_COUNT names, how many bytes they
   requested, and the most bytes that were held at once. */
#define _GNU_SOURCE
#include <dlfcn.h>
#include <errno.h>
#include <malloc.h>
#include <stdatomic.h>
#include <stdio.h>
#include <stdlib.h>
#include <sys/syscall.h>
#include <unistd.h>

static long refused;
static atomic_long count;
static atomic_long bytes;
static atomic_long held;
static atomic_long most_held;
static void *(*real_malloc)(size_t);
static void *(*real_realloc)(void *, size_t);
static void (*real_free)(void *);

__attribute__((constructor)) static void begin(void) {
    const char *number = getenv("REFUSED_GROWTH");
    real_malloc = dlsym(RTLD_NEXT, "malloc");
    real_realloc = dlsym(RTLD_NEXT, "realloc");
    real_free = dlsym(RTLD_NEXT, "free");
    count = 0;
    bytes = 0;
    held = 0;
    most_held = 0;
    refused = number ? atol(number) : 0;
}

static void tell(void) {
    const char *name = getenv("GROWTH_COUNT");
    long counted = count, asked = bytes, most = most_held;
    FILE *file = name && !refused ? fopen(name, "w") : NULL;
    if (file) {
        fprintf(file, "%ld %ld %ld\n", counted, asked, most);
        fclose(file);
    }
}

__attribute__((destructor)) static void end(void) { tell(); }

/* A program that may start threads ends by this call, which runs no destructor. */
void _exit(int status) {
    tell();
    for (;;)
        syscall(SYS_exit_group, status);
}

/* Whether this allocation, of so many bytes, is the one to refuse. */
static int refuses(size_t size) {
    atomic_fetch_add(&bytes, (long)size);
    long number = atomic_fetch_add(&count, 1) + 1;
    if (!refused || number != refused)
        return 0;
    errno = ENOMEM;
    return 1;
}

/* Counts a block that was got. */
static void *hold(void *block) {
    long more = (long)malloc_usable_size(block), now = atomic_fetch_add(&held, more) + more, most = most_held;
    while (most < now && !atomic_compare_exchange_weak(&most_held, &most, now))
        ;
    return block;
}

void *malloc(size_t size) {
    if (!real_malloc)
        real_malloc = dlsym(RTLD_NEXT, "malloc");
    return refuses(size) ? NULL : hold(real_malloc(size));
}

void *realloc(void *block, size_t size) {
    if (!real_realloc)
        real_realloc = dlsym(RTLD_NEXT, "realloc");
    if (refuses(size))
        return NULL;
    long before = (long)malloc_usable_size(block);
    void *grown = real_realloc(block, size);
    if (grown)
        atomic_fetch_sub(&held, before);
    return hold(grown);
}

void free(void *block) {
    if (!real_free)
        real_free = dlsym(RTLD_NEXT, "free");
    atomic_fetch_sub(&held, (long)malloc_usable_size(block));
    real_free(block);
}
