/* Preloaded, it has the program open the file BY in place of the file REPLACE, each time but the first. */
#define _GNU_SOURCE
#include <dlfcn.h>
#include <fcntl.h>
#include <stdarg.h>
#include <stdlib.h>
#include <string.h>

static int times;

int open(const char *path, int flags, ...) {
    const char *replaced = getenv("REPLACE"), *by = getenv("BY");
    if (replaced && by && strcmp(path, replaced) == 0 && times++ > 0) path = by;
    mode_t mode = 0;
    if (flags & O_CREAT) {
        va_list more;
        va_start(more, flags);
        mode = va_arg(more, mode_t);
        va_end(more);
    }
    int (*next)(const char *, int, ...) = (int (*)(const char *, int, ...))dlsym(RTLD_NEXT, "open");
    return next(path, flags, mode);
}
