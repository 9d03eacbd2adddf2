/* Refuses one request for memory, that whose number REFUSED has, and writes behind the end of the run how many there were into the file
   that COUNTED names. It stands between a program and the system's library, by LD_PRELOAD. */
#define _GNU_SOURCE
#include <dlfcn.h>
#include <stddef.h>
#include <stdio.h>
#include <stdlib.h>

static unsigned long asked, refused;
static void *(*system_malloc)(size_t);
static void *(*system_realloc)(void *, size_t);

__attribute__((constructor)) static void begin(void) {
    const char *number = getenv("REFUSED");
    system_malloc = (void *(*)(size_t))dlsym(RTLD_NEXT, "malloc");
    system_realloc = (void *(*)(void *, size_t))dlsym(RTLD_NEXT, "realloc");
    refused = number != NULL ? strtoul(number, NULL, 10) : 0;
    asked = 0;
}

__attribute__((destructor)) static void end(void) {
    const char *name = getenv("COUNTED");
    unsigned long count = asked;
    FILE *out = name != NULL ? fopen(name, "w") : NULL;
    if (out != NULL) {
        fprintf(out, "%lu\n", count);
        fclose(out);
    }
}

static int is_refused(void) { return ++asked == refused; }

void *malloc(size_t size) {
    if (system_malloc == NULL)
        begin();
    return is_refused() ? NULL : system_malloc(size);
}

void *realloc(void *old, size_t size) {
    if (system_realloc == NULL)
        begin();
    return is_refused() ? NULL : system_realloc(old, size);
}
