/* Refuses memory, for tools/out-of-memory: the FAIL_AT-th call that asks the C library for some, or, where FAIL_ON is
   set, that call and all after it. With FAIL_TOLD, the name of a file, it writes there how many calls there were, as
   the program ends. It is built as a library, is loaded by LD_PRELOAD, and counts from the program's start on. */
#define _GNU_SOURCE
#include <dlfcn.h>
#include <errno.h>
#include <fcntl.h>
#include <stddef.h>
#include <stdio.h>
#include <stdlib.h>
#include <unistd.h>

extern void *__libc_malloc(size_t);
extern void *__libc_calloc(size_t, size_t);
extern void *__libc_realloc(void *, size_t);
extern void *__libc_memalign(size_t, size_t);

static unsigned long asked, fails_at;
static int fails_on, begun;

__attribute__((constructor)) static void begin(void) {
    const char *at = getenv("FAIL_AT");
    fails_at = at ? strtoul(at, NULL, 10) : 0;
    fails_on = getenv("FAIL_ON") != NULL;
    begun = 1;
}

__attribute__((destructor)) static void tell(void) {
    const char *told = getenv("FAIL_TOLD");
    char text[32];
    unsigned long count = asked;
    if (!told)
        return;
    begun = 0;
    int file = open(told, O_WRONLY | O_CREAT | O_TRUNC, 0600);
    int length = snprintf(text, sizeof text, "%lu\n", count);
    if (file < 0 || write(file, text, (size_t)length) != length)
        _exit(99);
    close(file);
}

/* Whether this call is refused. What the loader asks for before `begin` is not counted. */
static int refused(void) {
    if (!begun)
        return 0;
    asked++;
    if (fails_at == 0 || asked < fails_at || (asked > fails_at && !fails_on))
        return 0;
    errno = ENOMEM;
    return 1;
}

void *malloc(size_t size) { return refused() ? NULL : __libc_malloc(size); }
void *calloc(size_t count, size_t size) { return refused() ? NULL : __libc_calloc(count, size); }
void *realloc(void *old, size_t size) { return refused() ? NULL : __libc_realloc(old, size); }
void *memalign(size_t align, size_t size) { return refused() ? NULL : __libc_memalign(align, size); }
void *aligned_alloc(size_t align, size_t size) { return memalign(align, size); }

void *reallocarray(void *old, size_t count, size_t size) {
    size_t all;
    if (__builtin_mul_overflow(count, size, &all)) {
        errno = ENOMEM;
        return NULL;
    }
    return realloc(old, all);
}

int posix_memalign(void **to, size_t align, size_t size) {
    void *got = memalign(align, size);
    if (!got)
        return ENOMEM;
    *to = got;
    return 0;
}
