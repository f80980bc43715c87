/* Preloaded, it refuses growths of memory: the REFUSE-th one, and with REFUSE_BEHIND all after it too. With GROWTHS it
 * writes at the end how many there were to the file of that name. A growth is what malloc, calloc, realloc and the aligned
 * kinds are asked for, once this library has begun: what the loader asks for before neither counts nor is refused. */
#define _GNU_SOURCE
#include <dlfcn.h>
#include <errno.h>
#include <stdio.h>
#include <stdlib.h>
#include <string.h>

static unsigned long growths, refused;
static int begun, behind;
static const char *counted;

static int is_refused(void) {
    if (!begun) return 0;
    growths++;
    if (refused == 0 || growths < refused || (growths > refused && !behind)) return 0;
    errno = ENOMEM;
    return 1;
}

__attribute__((constructor)) static void begin(void) {
    const char *which = getenv("REFUSE");
    refused = which ? strtoul(which, 0, 10) : 0;
    behind = getenv("REFUSE_BEHIND") != 0;
    counted = getenv("GROWTHS");
    begun = 1;
}

__attribute__((destructor)) static void end(void) {
    begun = 0;
    FILE *to = counted ? fopen(counted, "w") : 0;
    if (to) {
        fprintf(to, "%lu\n", growths);
        fclose(to);
    }
}

extern void *__libc_malloc(size_t), *__libc_calloc(size_t, size_t), *__libc_realloc(void *, size_t), *__libc_memalign(size_t, size_t);

void *malloc(size_t size) { return is_refused() ? 0 : __libc_malloc(size); }
void *calloc(size_t count, size_t size) { return is_refused() ? 0 : __libc_calloc(count, size); }
void *realloc(void *old, size_t size) { return is_refused() ? 0 : __libc_realloc(old, size); }
void *aligned_alloc(size_t align, size_t size) { return is_refused() ? 0 : __libc_memalign(align, size); }
void *memalign(size_t align, size_t size) { return is_refused() ? 0 : __libc_memalign(align, size); }

int posix_memalign(void **to, size_t align, size_t size) {
    if (is_refused()) return ENOMEM;
    *to = __libc_memalign(align, size);
    return *to ? 0 : ENOMEM;
}
