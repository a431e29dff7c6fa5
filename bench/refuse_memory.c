/*
 * Refuses one allocation of a program: the call of malloc or realloc of the number that REFUSED says, from 1, answers that there is no
 * memory; all others are passed on. When the program ends, the number of its calls is written into the file that COUNTED names.
 *
 *     gcc -O2 -shared -fPIC -o refuse_memory.so bench/refuse_memory.c
 *     REFUSED=3 COUNTED=FILE LD_PRELOAD=./refuse_memory.so PROGRAM WORD..
 */
#define _GNU_SOURCE
#include <errno.h>
#include <stdio.h>
#include <stdlib.h>

extern void *__libc_malloc(size_t size);
extern void *__libc_realloc(void *from, size_t size);

static long calls;
static long refused;
static int is_on;

__attribute__((constructor)) static void begin(void) {
    const char *text = getenv("REFUSED");
    refused = text == NULL ? 0 : atol(text);
    calls = 0;
    is_on = 1;
}

__attribute__((destructor)) static void end(void) {
    const char *path = getenv("COUNTED");
    long count = calls;
    is_on = 0;
    FILE *file = path == NULL ? NULL : fopen(path, "w");
    if (file != NULL) {
        fprintf(file, "%ld\n", count);
        fclose(file);
    }
}

static int is_refused(void) {
    return is_on && ++calls == refused;
}

void *malloc(size_t size) {
    if (is_refused()) {
        errno = ENOMEM;
        return NULL;
    }
    return __libc_malloc(size);
}

void *realloc(void *from, size_t size) {
    if (is_refused()) {
        errno = ENOMEM;
        return NULL;
    }
    return __libc_realloc(from, size);
}
