/* Sends records that are spoiled in all ways to a server over tests/stress/tree, and between them calls that have to be
 * answered as ever: storm PORT RECORDS [SEED]. A record is a good call of some procedure, of which bytes are changed, words
 * made large, ends cut or added, chunks of other calls put in, or the marks set in odd places. Where the server ends a
 * connection, another is opened. It prints how many records it sent, how many bytes were answered, how many connections
 * ended, and how long the good calls waited, in microseconds: the half and the last of a thousand. The key in its handles is
 * that of NFS3D_KEY (clients/key.h). */
#include <errno.h>
#include <fcntl.h>
#include <netinet/in.h>
#include <netinet/tcp.h>
#include <poll.h>
#include <stdint.h>
#include <stdio.h>
#include <stdlib.h>
#include <string.h>
#include <sys/socket.h>
#include <time.h>
#include <unistd.h>
#include "../../clients/key.h"

/* The longest record of a connection, and room for it with what is added to it. */
enum { LONGEST = 262144, MOST = LONGEST + 8192, MOST_RECORD = MOST, TOGETHER = 40, TIMES = 1 << 20 };

#include "../records.h"

static unsigned short port;
static uint32_t key[2];
static unsigned char batch[MOST * 2];
static size_t filled;
static unsigned long answered, ended, measured;
static float times[TIMES];

static void fail(const char *what) {
    fprintf(stderr, "storm: %s\n", what);
    exit(1);
}

static double now(void) {
    struct timespec t;
    clock_gettime(CLOCK_MONOTONIC, &t);
    return (double)t.tv_sec * 1e6 + (double)t.tv_nsec / 1e3;
}

static void handle_of(Record *r, uint32_t file) {
    word(r, 24), word(r, 0x4e465333), word(r, key[0]), word(r, key[1]), word(r, file - 1), word(r, 0), word(r, file);
}

static void handle(Record *r) {
    handle_of(r, 1 + any(8));
}

static void name(Record *r) {
    static const char *names[] = {"f", "d", "l", ".", "..", "", "a/b", "new", "f2", "told"};
    char letters[300];
    if (any(8) == 0) memset(letters, 'n', sizeof letters), opaque(r, letters, 250 + any(10));
    else if (any(3) == 0) letters[0] = 'x', letters[1] = (char)('a' + any(26)), letters[2] = (char)('a' + any(26)), opaque(r, letters, 3);
    else {
        const char *n = names[any(10)];
        opaque(r, n, (uint32_t)strlen(n));
    }
}

static void settings(Record *r) {
    for (int i = 0; i < 3; i++) if (any(2)) word(r, 1), word(r, any(3) ? any(512) : any(12)); else word(r, 0);
    if (any(3) == 0) word(r, 1), word(r, 0), word(r, any(20000)); else word(r, 0);
    for (int i = 0; i < 2; i++) {
        uint32_t how = any(3);
        word(r, how);
        if (how == 2) word(r, any(1000)), word(r, any(1000));
    }
}

static void data(Record *r) {
    static unsigned char zeros[LONGEST / 2];
    uint32_t len = any(6) ? any(200) : any(sizeof zeros);
    word(r, 0), word(r, any(4) ? any(5000) : any(0x7fffffff)), word(r, len), word(r, any(3));
    opaque(r, zeros, len);
}

/* A good call of some procedure of NFS or of MOUNT. */
static void good(Record *r, uint32_t xid) {
    uint32_t mount = any(8) == 0, proc = mount ? any(6) : any(22);
    r->len = 0;
    word(r, xid), word(r, 0), word(r, 2), word(r, mount ? 100005 : 100003), word(r, 3), word(r, proc);
    word(r, 1), word(r, 24), word(r, 0), word(r, 0), word(r, any(3) ? 9 : 0), word(r, 9), word(r, 1), word(r, 5);
    word(r, 0), word(r, 0);
    if (mount) {
        if (proc == 1 || proc == 3) opaque(r, any(2) ? "/a" : "/kept", any(2) ? 2 : 5);
        return;
    }
    if (proc == 0) return;
    handle(r);
    switch (proc) {
    case 2: settings(r), word(r, 0); break;
    case 3: case 12: case 13: name(r); break;
    case 4: word(r, any(64)); break;
    case 6: case 21: word(r, 0), word(r, any(100)), word(r, any(140000)); break;
    case 7: data(r); break;
    case 8: name(r), word(r, any(2)), settings(r); break;
    case 9: name(r), settings(r); break;
    case 10: name(r), settings(r), name(r); break;
    case 11: name(r), word(r, 1 + any(7)), settings(r), word(r, 0), word(r, 0); break;
    case 14: name(r), handle(r), name(r); break;
    case 15: handle(r), name(r); break;
    case 16: word(r, 0), word(r, any(6)), word(r, 0), word(r, 0), word(r, any(3000)); break;
    case 17: word(r, 0), word(r, any(6)), word(r, 0), word(r, 0), word(r, any(1000)), word(r, any(5000)); break;
    }
}

static void spoil(Record *r) {
    static const uint32_t odd[] = {0, 1, 2, 3, 5, 24, 25, 63, 64, 65, 255, 256, 400, 401, 1024, 1025, 65536, 65537, 131072, 131073, 262144, 0x7fffffff, 0x80000000u, 0xffffffffu};
    static Record other;
    uint32_t w;
    switch (any(9)) {
    case 0: break;
    case 1: for (uint32_t n = 1 + any(4); n > 0; n--) r->bytes[any((uint32_t)r->len)] = (unsigned char)any(256); break;
    case 2: case 3:
        w = htonl(odd[any(sizeof odd / sizeof *odd)]);
        memcpy(r->bytes + any((uint32_t)r->len / 4) * 4, &w, 4);
        break;
    case 4: r->len = any((uint32_t)r->len + 1); break;
    case 5: for (uint32_t n = any(64); n > 0; n--) r->bytes[r->len++] = (unsigned char)any(256); break;
    case 6: {
        good(&other, any(1000000));
        size_t at = any((uint32_t)(r->len < other.len ? r->len : other.len) + 1) & ~3u;
        memcpy(r->bytes + at, other.bytes + at, other.len - at);
        r->len = other.len;
        break;
    }
    case 7: for (uint32_t n = any(300), i = r->len = 0; i < n; i++) r->bytes[r->len++] = (unsigned char)any(256); break;
    case 8: r->bytes[23] = (unsigned char)any(30); break;
    }
}

static void piece(const unsigned char *bytes, size_t len, int is_last) {
    uint32_t mark = htonl((is_last ? 0x80000000u : 0) | (uint32_t)len);
    memcpy(batch + filled, &mark, 4);
    memcpy(batch + filled + 4, bytes, len);
    filled += len + 4;
}

/* The record in one fragment, in some, or after a mark that is above the limit. */
static void add(const Record *r) {
    size_t at = 0;
    if (any(400) == 0) {
        uint32_t mark = htonl(LONGEST + 1 + any(1000000000));
        memcpy(batch + filled, &mark, 4);
        filled += 4;
        return;
    }
    if (any(4) == 0)
        for (uint32_t n = any(5); n > 0; n--) {
            size_t some = any((uint32_t)(r->len - at) + 1);
            piece(r->bytes + at, some, 0);
            at += some;
        }
    piece(r->bytes + at, r->len - at, 1);
}

static int joined(void) {
    struct sockaddr_in to = {.sin_family = AF_INET, .sin_port = htons(port)};
    int peer = socket(AF_INET, SOCK_STREAM, 0), yes = 1;
    to.sin_addr.s_addr = htonl(INADDR_LOOPBACK);
    if (peer < 0 || connect(peer, (struct sockaddr *)&to, sizeof to) != 0) fail("no connection");
    setsockopt(peer, IPPROTO_TCP, TCP_NODELAY, &yes, sizeof yes);
    return peer;
}

/* Sends the batch, and takes what is answered in the meantime. Whether the connection is still there. */
static int send_batch(int peer) {
    static unsigned char in[1 << 18];
    size_t out = 0;
    while (out < filled) {
        struct pollfd p = {.fd = peer, .events = POLLIN | POLLOUT};
        if (poll(&p, 1, 20000) <= 0) fail("it neither takes nor answers");
        if (p.revents & (POLLIN | POLLHUP | POLLERR)) {
            ssize_t got = recv(peer, in, sizeof in, MSG_DONTWAIT);
            if (got == 0 || (got < 0 && errno != EAGAIN)) return 0;
            if (got > 0) answered += (unsigned long)got;
        }
        if (p.revents & POLLOUT) {
            ssize_t put = send(peer, batch + out, filled - out, MSG_DONTWAIT | MSG_NOSIGNAL);
            if (put < 0 && errno != EAGAIN) return 0;
            if (put > 0) out += (size_t)put;
        }
    }
    return 1;
}

/* A READ of the file that nobody can change, whose reply is known. */
static void ask(int peer, uint32_t xid, Record *first) {
    static Record r, reply;
    r.len = 0;
    word(&r, 0x80000000u | 100), word(&r, xid), word(&r, 0), word(&r, 2), word(&r, 100003), word(&r, 3), word(&r, 6);
    word(&r, 1), word(&r, 20), word(&r, 0), word(&r, 0), word(&r, 9), word(&r, 9), word(&r, 0), word(&r, 0), word(&r, 0);
    handle_of(&r, 6), word(&r, 0), word(&r, 0), word(&r, 100);
    double began = now();
    if (send(peer, r.bytes, r.len, MSG_NOSIGNAL) != (ssize_t)r.len) fail("a good call can't be sent");
    for (reply.len = 0; reply.len < 144;) {
        struct pollfd p = {.fd = peer, .events = POLLIN};
        if (poll(&p, 1, 20000) <= 0) fail("a good call isn't answered");
        ssize_t got = recv(peer, reply.bytes + reply.len, 144 - reply.len, 0);
        if (got <= 0) fail("a good client's connection ended");
        reply.len += (size_t)got;
    }
    if (measured < TIMES) times[measured++] = (float)(now() - began);
    word(&r, xid);
    if (memcmp(reply.bytes + 4, r.bytes + r.len - 4, 4) != 0) fail("a good call got another's reply");
    if (memcmp(reply.bytes + 132, "this stays\0", 12) != 0) fail("a good call got other bytes");
    if (first->len > 0 && memcmp(reply.bytes + 8, first->bytes + 8, 136) != 0) fail("a good call got another reply than the first");
    if (first->len == 0) *first = reply;
}

static int by_size(const void *a, const void *b) {
    float x = *(const float *)a, y = *(const float *)b;
    return x < y ? -1 : x > y;
}

int main(int count, char **w) {
    static Record r, first;
    if (count < 3) fail("storm PORT RECORDS [SEED]");
    port = (unsigned short)atoi(w[1]);
    read_key(key);
    unsigned long records = strtoul(w[2], 0, 10), sent = 0;
    seed = count > 3 ? strtoull(w[3], 0, 10) : (uint64_t)time(0);
    printf("seed=%llu ", (unsigned long long)seed);
    seed = seed * 0x9E3779B97F4A7C15ULL | 1;
    int kept = joined(), peer = joined();
    for (uint32_t xid = 1; sent < records; xid++) {
        filled = 0;
        for (int i = 0; i < TOGETHER && filled < MOST && sent < records; i++, sent++) {
            good(&r, any(50) ? (uint32_t)sent : (uint32_t)any(100));
            spoil(&r);
            add(&r);
        }
        if (!send_batch(peer) || any(50) == 0) {
            ended++;
            close(peer);
            peer = joined();
        }
        ask(kept, xid, &first);
    }
    qsort(times, measured, sizeof *times, by_size);
    printf("records=%lu answered=%lu connections=%lu waits=%.0f,%.0f\n", sent, answered, ended, times[measured / 2], times[measured - 1 - measured / 1000]);
    return 0;
}
