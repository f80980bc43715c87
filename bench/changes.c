/* The baselines of calls that change files, of ACCESS, and of a call that is denied: the same calls over the same files,
 * written plainly (changes.h), with replies cached or not (answer.h). */
#include "answer.h"

enum { ROUNDS = 1000000, WRITES = 100000, RUNS = 5, MOST = 64 };

static const struct export exports[] = {{0, 0x0a000000, 24, ROOT, 65534, 65534}, {0, 0x0a000100, 24, NOBODY, 0, 0}, {0, 0x0a000209, 32, ALL, 7, 7}, {1, 0x0a000000, 24, NOBODY, 0, 0}};

/* ---- what is measured */

static unsigned char records[2][131072 + 512];
static size_t lengths[2];

static void begin(int i, uint32_t proc, uint64_t number) {
    static const unsigned char head[60] = {0, 0, 0, 42, 0, 0, 0, 0, 0, 0, 0, 2, 0, 1, 0x86, 0xa3, 0, 0, 0, 3, 0, 0, 0, 0,
        0, 0, 0, 1, 0, 0, 0, 20, 0, 0, 0, 0, 0, 0, 0, 0, 0, 0, 0, OWNER, 0, 0, 0, OWNER, 0, 0, 0, 0, 0, 0, 0, 0, 0, 0, 0, 0};
    memcpy(records[i], head, 60);
    records[i][23] = (unsigned char)proc;
    lengths[i] = 60;
    (void)number;
}

static void add(int i, const void *bytes, size_t n) {
    memcpy(records[i] + lengths[i], bytes, n);
    lengths[i] += n;
}

static void add_handle(int i, unsigned char number) {
    unsigned char handle[28] = {0, 0, 0, HANDLE, 'N', 'F', 'S', '3', 1, 2, 3, 4, 5, 6, 7, 8};
    handle[27] = number;
    add(i, handle, 28);
}

static void measure(const char *name, uint32_t address, int count, uint32_t rounds) {
    static unsigned char reply[1000];
    static char line[200];
    uint64_t least = UINT64_MAX;
    size_t bytes = 0;
    for (int run = 0; run < RUNS; run++) {
        uint64_t start = now();
        for (uint32_t xid = 0; xid < rounds; xid++)
            for (int i = 0; i < count; i++) {
                put(records[i], keeps == 2 ? 0 : 2 * xid + (uint32_t)i);
                bytes += answer(address, records[i], lengths[i], reply, line);
            }
        uint64_t time = (now() - start) * 10 / rounds;
        least = time < least ? time : least;
    }
    printf("%s %llu.%llu %zu\n", name, (unsigned long long)(least / 10), (unsigned long long)(least % 10), bytes / (RUNS * (size_t)rounds));
}

/* a new record of so many bytes, and its reply: nothing else is done */
static void measure_kept(uint32_t len) {
    static unsigned char record[131072 + 512], reply[144];
    uint64_t least = UINT64_MAX;
    uint32_t rounds = len < 65536 ? ROUNDS : WRITES;
    memset(record, 7, sizeof record);
    for (int run = 0; run < RUNS; run++) {
        uint64_t start = now();
        for (uint32_t xid = 0; xid < rounds; xid++) {
            put(record, xid);
            uint32_t hash = hash_of(0x0a000001, record, len);
            if (find_place(0x0a000001, hash, record, len))
                continue;
            struct place *place = take_place(0x0a000001, hash, record, len);
            place->reply_len = sizeof reply;
            memcpy(place->reply, reply, sizeof reply);
        }
        uint64_t time = (now() - start) * 10 / rounds;
        least = time < least ? time : least;
    }
    printf("kept-%u %llu.%llu\n", len, (unsigned long long)(least / 10), (unsigned long long)(least % 10));
}

int main(void) {
    volumes[0] = (struct limits){20000000, 12, 12, 8}, volumes[1] = (struct limits){1000, 4, 0, 1};
    s = (struct server){{1, 2, 3, 4, 5, 6, 7, 8}, 10, NULL, 9, exports, 4, 0};
    static const unsigned char name_x[8] = {0, 0, 0, 1, 'x'}, name_y[8] = {0, 0, 0, 1, 'y'}, zeros[131072];
    unsigned char write[20] = {0};
    s.files = files = some(MOST, sizeof *files);
    file(0, 2, 0755, 0, 0, 0), file(1, 2, 0777, 1, 0, 0), file(2, 1, 0711, 1, 5, 0), file(3, 1, 0710, 1, 5, 0), file(4, 1, 0640, 1, 2, 0);
    file(5, 2, 0007, 5, 0, 0), file(6, 1, 0, 5, 0, 0), file(7, 2, 0777, 0, 0, 1), file(8, 1, 0644, 9, sizeof zeros, 0);
    volumes[0].used += sizeof zeros;
    enter(&files[1], (struct bytes){(const unsigned char *)"x", 1}, &files[2]), enter(&files[1], (struct bytes){(const unsigned char *)"n", 1}, &files[3]);
    enter(&files[1], (struct bytes){(const unsigned char *)"large", 5}, &files[8]);
    begin(0, 4, 9), add_handle(0, 9), add(0, (unsigned char[]){0, 0, 0, 0x3f}, 4);
    measure("access", 0x0a000001, 1, ROUNDS);
    begin(0, 2, 9), add_handle(0, 9), add(0, (unsigned char[]){0, 0, 0, 1, 0, 0, 1, 0xa4}, 8), add(0, zeros, 24);
    measure("setattr", 0x0a000001, 1, ROUNDS);
    keeps = 1;
    measure("setattr-kept", 0x0a000001, 1, ROUNDS);
    keeps = 2;
    measure("setattr-again", 0x0a000001, 1, ROUNDS);
    keeps = 0;
    begin(0, 8, 2), add_handle(0, 2), add(0, name_y, 8), add(0, (unsigned char[]){0, 0, 0, 1}, 4), add(0, zeros, 24);
    begin(1, 12, 2), add_handle(1, 2), add(1, name_y, 8);
    measure("create-remove", 0x0a000001, 2, ROUNDS);
    keeps = 1;
    measure("create-remove-kept", 0x0a000001, 2, ROUNDS);
    keeps = 0;
    begin(0, 14, 2), add_handle(0, 2), add(0, name_x, 8), add_handle(0, 2), add(0, name_y, 8);
    begin(1, 14, 2), add_handle(1, 2), add(1, name_y, 8), add_handle(1, 2), add(1, name_x, 8);
    measure("rename", 0x0a000001, 2, ROUNDS);
    keeps = 1;
    measure("rename-kept", 0x0a000001, 2, ROUNDS);
    use_index(&files[1]);
    measure("rename-indexed", 0x0a000001, 2, ROUNDS);
    keeps = 0;
    static const uint32_t counts[] = {4096, 65536, 131072};
    for (int i = 0; i < 3; i++) {
        char name[32];
        begin(0, 7, 9), add_handle(0, 9), memset(write, 0, 20);
        put(write + 8, counts[i]), write[15] = 2, put(write + 16, counts[i]);
        add(0, write, 20), add(0, zeros, counts[i]);
        snprintf(name, sizeof name, "write-%u", counts[i]);
        measure(name, 0x0a000001, 1, WRITES);
        keeps = 1;
        snprintf(name, sizeof name, "write-%u-kept", counts[i]);
        measure(name, 0x0a000001, 1, WRITES);
        keeps = 0;
    }
    begin(0, 1, 9), add_handle(0, 9);
    measure("denied", 0x0a000301, 1, ROUNDS);
    measure_kept(136), measure_kept(4196), measure_kept(65636), measure_kept(131172);
    return 0;
}
