/* How long a page of a directory takes to write: the least of five runs. */
#include "items.h"
#include <stdio.h>

/* Writes a page of so many bytes, with files' attributes and handles or without, and returns how many bytes it has. */
typedef size_t page_writer(size_t room, int plus);

static void measure(const char *name, page_writer *write, size_t room, int plus) {
    enum { ROUNDS = 20000, RUNS = 5 };
    uint64_t least = UINT64_MAX;
    size_t bytes = 0;
    for (int run = 0; run < RUNS; run++) {
        uint64_t start = now();
        for (int round = 0; round < ROUNDS; round++)
            bytes = write(room, plus);
        uint64_t time = now() - start;
        least = time < least ? time : least;
    }
    printf("%s %.1f %zu\n", name, (double)least / ROUNDS, bytes);
}
