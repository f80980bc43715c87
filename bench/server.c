/* A server in plain C over epoll of the files of bench/names: what calls cost beyond an echo of their sizes, for any server that
 * reads, checks, performs and answers them, and caches the replies to those that change files (answer.h). It reads the clock for the
 * times of files, for how long a turn takes, and for when a client was last heard. The key in handles is that of NFS3D_KEY. It
 * prints its port. */
#include "listening.h"
#include "answer.h"
#include "../clients/key.h"
#include <errno.h>
#include <unistd.h>

/* LONGEST is more than the longest reply has, with its mark. */
enum { PEERS = 8192, ROOM = 4 * (65536 + 1024), BATCH = 524288, LONGEST = 131072 + 1024, MOST = 200000, BOUNDS = 6 };

static size_t came[PEERS]; /* how many bytes have come that are not answered */

/* When a peer was heard, in seconds; how many turns took as long; how many microseconds they took together. None is static, so that
 * the compiler keeps what nothing reads. */
uint64_t heard[PEERS], turns[BOUNDS + 1], together;
static unsigned char *held[PEERS], batch[BATCH];
static const struct export exports[] = {{0, 0, 0, NOBODY, 0, 0}};

static uint32_t mark_of(const unsigned char *at) {
    struct input in = {at, 4};
    uint32_t n = 0;
    get(&in, &n);
    return n & 0x7fffffff;
}

/* Sends all of these bytes; a client that takes none is let go. */
static int sent(int peer, const unsigned char *bytes, size_t n) {
    while (n > 0) {
        ssize_t some = send(peer, bytes, n, MSG_NOSIGNAL);
        if (some < 0 && errno == EAGAIN) continue;
        if (some <= 0) return 0;
        bytes += some, n -= (size_t)some;
    }
    return 1;
}

/* Answers whole records among these bytes, as many as the batch has room for, and returns how many bytes they have. */
static size_t answered(const unsigned char *bytes, size_t n, size_t *out) {
    static char line[200];
    size_t at = 0;
    for (*out = 0; n - at >= 4 && n - at - 4 >= mark_of(bytes + at) && *out < BATCH - LONGEST; at += 4 + mark_of(bytes + at))
        *out += 4 + answer(INADDR_LOOPBACK, bytes + at + 4, mark_of(bytes + at), batch + *out, line);
    return at;
}

static void begin_peer(int peer) {
    came[peer] = 0;
    if (!held[peer]) held[peer] = some(1, ROOM);
}

static void take(int peer) {
    for (;;) {
        ssize_t got = recv(peer, held[peer] + came[peer], ROOM - came[peer], 0);
        if (got < 0 && errno == EAGAIN) return;
        if (got <= 0) {
            close(peer);
            return;
        }
        size_t all = came[peer] + (size_t)got, used = 0, out;
        do {
            used += answered(held[peer] + used, all - used, &out);
            if (!sent(peer, batch, out)) {
                close(peer);
                return;
            }
        } while (out > 0);
        memmove(held[peer], held[peer] + used, came[peer] = all - used);
        if (all < ROOM) return;
    }
}

static struct moment moment(void) {
    struct timespec t;
    clock_gettime(CLOCK_REALTIME, &t);
    return (struct moment){(uint32_t)t.tv_sec, (uint32_t)t.tv_nsec};
}

static void count_turn(int peer, uint64_t began) {
    static const uint64_t bounds[BOUNDS] = {10, 100, 1000, 10000, 100000, 1000000};
    uint64_t ended = now(), micros = (ended - began) / 1000;
    size_t place = 0;
    while (place < BOUNDS && micros > bounds[place]) place++;
    turns[place]++, together += micros, heard[peer] = ended / 1000000000;
}

static void turn(int peer) {
    uint64_t began = now();
    at_now = moment();
    take(peer);
    count_turn(peer, began);
}

static void begin_name(size_t dir, const char *name, size_t slot) {
    enter(&files[dir], (struct bytes){(const unsigned char *)name, (uint32_t)strlen(name)}, &files[slot]);
}

/* The directory /d with files of 4, 64 and 128 KiB, and then those of 1,000, 10,000 and 100,000 names. */
static void begin_files(void) {
    static const size_t sizes[] = {4096, 65536, 131072};
    static const char *const names[] = {"f4", "f64", "f128"};
    char name[32];
    s.files = files = some(MOST, sizeof *files);
    file(0, 2, 0755, 0, 0, 0), file(1, 2, 0777, 0, 0, 0);
    use_index(&files[1]);
    begin_name(0, "d", 1);
    for (size_t i = 0; i < 3; i++) {
        file(2 + i, 1, 0666, 0, sizes[i], 0);
        begin_name(1, names[i], 2 + i);
    }
    s.count = 5;
    for (unsigned names_of = 1000; names_of <= 100000; names_of *= 10) {
        size_t dir = s.count++;
        file(dir, 2, 0777, 0, 0, 0);
        use_index(&files[dir]);
        snprintf(name, sizeof name, "n%u", names_of);
        begin_name(0, name, dir);
        for (unsigned i = 0; i < names_of; i++) {
            file(s.count, 1, 0666, 0, 0, 0);
            snprintf(name, sizeof name, "n%06u", i);
            begin_name(dir, name, s.count++);
        }
    }
    s.next = s.count + 1;
}

int main(void) {
    uint32_t key[2];
    read_key(key);
    s = (struct server){.exports = exports, .patterns = 1, .tagged = 1};
    put(put(s.key, key[0]), key[1]);
    begin_files();
    volumes[0] = (struct limits){1000000000, MOST, 200000, s.count};
    keeps = 1;
    serve_all(begin_peer, turn);
}
