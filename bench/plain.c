/* The baselines of the measures: the same work, written plainly.
 *
 * copy: 64 KiB in chunks of 8 KiB, copied one after another into one buffer.
 * copy-131072: 128 KiB so, into a buffer of as many.
 * copy-4096: 4 KiB, copied in one chunk.
 * null: a NULL call, from its record to its reply: the head is read word by word with its bounds
 *       tested, the rules of RPC are tested, and the reply is written with its record mark. It is
 *       kept out of line; a compiler that makes a copy of it for this record's length may drop
 *       tests of bounds all the same, and is then the harder baseline.
 */
#include "items.h"
#include <stdio.h>
#include <string.h>

enum { RECORD = 65536, LONGEST = 131072, PIECE = 8192, PAGE = 4096, COPIES = 20000, CALLS = 5000000, RUNS = 5 };

static int skip(struct input *in) {
    uint32_t n;
    if (!get(in, &n) || n > 400)
        return 0;
    n = (n + 3) & ~3u;
    if (in->left < n)
        return 0;
    in->at += n;
    in->left -= n;
    return 1;
}

__attribute__((noinline)) static size_t answer(const unsigned char *record, size_t len, unsigned char *reply) {
    struct input in = {record, len};
    uint32_t xid, kind, rpcvers, prog, vers, proc, flavor, stat = 0;
    if (!get(&in, &xid) || !get(&in, &kind) || kind != 0 || !get(&in, &rpcvers) || !get(&in, &prog) || !get(&in, &vers) ||
        !get(&in, &proc) || !get(&in, &flavor) || !skip(&in) || !get(&in, &flavor) || !skip(&in))
        return 0;
    if (rpcvers != 2)
        return 0;
    if (prog != 100003 && prog != 100005)
        stat = 1;
    else if (vers != 3)
        stat = 2;
    else if (proc != 0)
        stat = 3;
    put(reply, 0x80000018);
    put(reply + 4, xid);
    put(reply + 8, 1);
    put(reply + 12, 0);
    put(reply + 16, 0);
    put(reply + 20, 0);
    put(reply + 24, stat);
    return 28;
}

static void measure_copy(const char *name, size_t len, size_t piece, int copies) {
    static unsigned char from[LONGEST], into[LONGEST];
    uint64_t least = UINT64_MAX;
    volatile unsigned char seen;
    for (size_t i = 0; i < LONGEST; i++)
        from[i] = i % 251;
    for (int run = 0; run < RUNS; run++) {
        uint64_t start = now();
        for (int copy = 0; copy < copies; copy++) {
            for (size_t at = 0; at < len; at += piece)
                memcpy(into + at, from + at, piece);
            seen = into[copy % len];
        }
        uint64_t time = (now() - start) * 10 / copies;
        least = time < least ? time : least;
    }
    (void)seen;
    printf("%s %llu.%llu\n", name, (unsigned long long)(least / 10), (unsigned long long)(least % 10));
}

static void measure_null(void) {
    unsigned char record[40] = {0, 0, 0, 42, 0, 0, 0, 0, 0, 0, 0, 2, 0, 1, 0x86, 0xa3, 0, 0, 0, 3};
    static unsigned char reply[294912];
    uint64_t least = UINT64_MAX;
    volatile size_t bytes = 0;
    for (int run = 0; run < RUNS; run++) {
        uint64_t start = now();
        for (uint32_t xid = 0; xid < CALLS; xid++) {
            put(record, xid);
            bytes += answer(record, sizeof record, reply);
        }
        uint64_t time = (now() - start) / (CALLS / 10);
        least = time < least ? time : least;
    }
    printf("null %llu.%llu\n", (unsigned long long)(least / 10), (unsigned long long)(least % 10));
}

int main(void) {
    measure_copy("copy", RECORD, PIECE, COPIES);
    measure_copy("copy-131072", LONGEST, PIECE, COPIES);
    measure_copy("copy-4096", PAGE, PAGE, 16 * COPIES);
    measure_null();
    return 0;
}
