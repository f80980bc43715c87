/* What the disk takes for appends that are each synced: syncs FILE BYTES COUNT. It appends BYTES to FILE COUNT times, with an
 * fdatasync after each, and prints the microseconds of each, the middle and the least, and takes the file away. */
#include <fcntl.h>
#include <stdio.h>
#include <stdlib.h>
#include <string.h>
#include <time.h>
#include <unistd.h>

static double now(void) {
    struct timespec t;
    clock_gettime(CLOCK_MONOTONIC, &t);
    return (double)t.tv_sec * 1e6 + (double)t.tv_nsec / 1e3;
}

static int by_size(const void *a, const void *b) {
    double x = *(const double *)a, y = *(const double *)b;
    return x < y ? -1 : x > y;
}

int main(int argc, char **argv) {
    if (argc < 4) {
        fprintf(stderr, "usage: syncs FILE BYTES COUNT\n");
        return 2;
    }
    size_t bytes = strtoul(argv[2], 0, 10), count = strtoul(argv[3], 0, 10);
    char *block = malloc(bytes);
    double *times = calloc(count, sizeof *times);
    int file = open(argv[1], O_WRONLY | O_CREAT | O_APPEND, 0600);
    if (file < 0 || !block || !times || count == 0) {
        perror("syncs");
        return 1;
    }
    memset(block, 'x', bytes);
    for (size_t i = 0; i < count; i++) {
        double began = now();
        if (write(file, block, bytes) != (ssize_t)bytes || fdatasync(file) != 0) {
            perror("syncs");
            return 1;
        }
        times[i] = now() - began;
    }
    unlink(argv[1]);
    qsort(times, count, sizeof *times, by_size);
    printf("%.1f %.1f\n", times[count / 2], times[0]);
    return 0;
}
