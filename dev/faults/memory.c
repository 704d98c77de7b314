/* Refuses one allocation of a program: the one whose number, from 1, is in REFUSED. Without it none is
   refused, and how many there were is told on standard error at the end. For dev/faults/run memory alone:
   it is loaded before the C library, whose own names for these functions it calls. */
#include <errno.h>
#include <stdio.h>
#include <stdlib.h>
#include <unistd.h>

extern void *__libc_malloc(size_t);
extern void *__libc_calloc(size_t, size_t);
extern void *__libc_realloc(void *, size_t);
extern void *__libc_memalign(size_t, size_t);

static long asked, refused;

__attribute__((constructor)) static void begin(void) {
    const char *number = getenv("REFUSED");
    refused = number ? atol(number) : 0;
    asked = 0;
}

__attribute__((destructor)) static void end(void) {
    char text[32];
    if (refused == 0 && write(2, text, snprintf(text, sizeof text, "asked %ld\n", asked)) < 0) _exit(1);
}

static int is_refused(void) {
    asked += 1;
    return asked == refused;
}

void *malloc(size_t size) {
    if (is_refused()) { errno = ENOMEM; return NULL; }
    return __libc_malloc(size);
}

void *calloc(size_t count, size_t size) {
    if (is_refused()) { errno = ENOMEM; return NULL; }
    return __libc_calloc(count, size);
}

void *realloc(void *old, size_t size) {
    if (is_refused()) { errno = ENOMEM; return NULL; }
    return __libc_realloc(old, size);
}

void *aligned_alloc(size_t align, size_t size) {
    if (is_refused()) { errno = ENOMEM; return NULL; }
    return __libc_memalign(align, size);
}

int posix_memalign(void **to, size_t align, size_t size) {
    if (is_refused()) return ENOMEM;
    *to = __libc_memalign(align, size);
    return *to == NULL ? ENOMEM : 0;
}
