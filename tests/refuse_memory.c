// Stands between a program and the library's malloc: loaded before the program, it refuses the request for memory whose number,
// counted from 1, is in the variable REFUSED_REQUEST, lets all others through, and writes a byte to descriptor 3 when it refuses.
#define _GNU_SOURCE
#include <dlfcn.h>
#include <errno.h>
#include <stdlib.h>
#include <unistd.h>

static void *(*next_malloc)(size_t);
static void *(*next_realloc)(void *, size_t);
static unsigned long refused;
static unsigned long requests;

// The library's own functions, and which request is refused. The environment is read once.
static void prepare(void) {
    const char *number = getenv("REFUSED_REQUEST");
    refused = number ? strtoul(number, NULL, 10) : 0;
    next_realloc = (void *(*)(void *, size_t))dlsym(RTLD_NEXT, "realloc");
    next_malloc = (void *(*)(size_t))dlsym(RTLD_NEXT, "malloc");
}

// Counts a request, and answers whether it is the one.
static int is_refused(void) {
    if (!next_malloc)
        prepare();
    if (__atomic_add_fetch(&requests, 1, __ATOMIC_RELAXED) != refused)
        return 0;
    if (write(3, "x", 1) != 1)
        _exit(70);
    errno = ENOMEM;
    return 1;
}

void *malloc(size_t size) {
    return is_refused() ? NULL : next_malloc(size);
}

void *realloc(void *old, size_t size) {
    return is_refused() ? NULL : next_realloc(old, size);
}
