/* Loads a server over TCP: load PORT WORK CLIENTS DEPTH CALLS [echo|alike], where WORK is null, getattr, access,
 * lookup, read4, read64, read128, write4, write64, write128, make, make-dir, rename, list, pages, missing, denied, or one of
 * look1000, look10000, look100000, list1000, plus1000 and remove100000. Each client has
 * up to DEPTH calls under way. Each reply is looked at: its length, and that its number is that of the
 * client's oldest call. It prints the microseconds a call, and the 99th of a hundred times of a call. With
 * echo, the sizes alone are asked for. With alike, all replies must be equal but for their numbers. With
 * idle in place of WORK the clients connect and say nothing until standard input ends.
 *
 * The description is that of bench/tree, and the key in its handles that of NFS3D_KEY (clients/key.h). A
 * call of missing is a LOOKUP of a name that isn't there, and one of denied a GETATTR of file 6: the root of
 * a volume that isn't exported here, which stands after bench/tree's own. With pages, file 6 is a directory
 * with more entries than a reply holds, whose names have 1 to 4 bytes. READs and WRITEs begin at the byte
 * that NFS3D_OFFSET says, 0 by default. The last works and rename are on the directories of bench/names: LOOKUPs of their names in a wandering
 * order, the first page of a READDIR or a READDIRPLUS, a REMOVE of each name in that order, and a RENAME there and back. */
#include <arpa/inet.h>
#include <errno.h>
#include <fcntl.h>
#include <netinet/in.h>
#include <netinet/tcp.h>
#include <stdint.h>
#include <stdio.h>
#include <stdlib.h>
#include <string.h>
#include <sys/epoll.h>
#include <sys/socket.h>
#include <time.h>
#include <unistd.h>
#include "../clients/key.h"

/* RENAMED is how far the second name of a RENAME stands after the first. */
enum { MOST = 1 << 18, TIMES = 1 << 20, RENAMED = 4 * 10 };

typedef struct {
    int peer;
    unsigned sent, got;        /* calls begun and replies come */
    size_t out, in;            /* bytes of the call under way, and of the reply */
    double *begun;             /* when each call under way began */
    unsigned char head[8];
    uint64_t sum, first;       /* of the bytes of the reply under way, and of the first reply */
} Client;

static unsigned char call[MOST], room[MOST], other[MOST];
static size_t call_size, reply_size, reply2_size, other_size;
static double times[TIMES];
static unsigned long measured;
static uint32_t key[2], offset[2];
static unsigned names;         /* how many names a directory has that are looked up */
static size_t renamed;         /* where the first name of a RENAME stands, or 0 */

static double now(void) {
    struct timespec t;
    clock_gettime(CLOCK_MONOTONIC, &t);
    return (double)t.tv_sec * 1e6 + (double)t.tv_nsec / 1e3;
}

static void fail(const char *what) {
    fprintf(stderr, "load: %s\n", what);
    exit(1);
}

static size_t words(unsigned char *to, size_t at, const uint32_t *from, size_t n) {
    for (size_t i = 0; i < n; i++) {
        uint32_t w = htonl(from[i]);
        memcpy(to + at, &w, 4);
        at += 4;
    }
    return at;
}

/* A call of a procedure on a file: its head, the caller's credential and the handle. */
static size_t begin(unsigned char *to, uint32_t proc, uint32_t file) {
    uint32_t head[] = {0, 0, 0, 2, 100003, 3, proc};
    uint32_t credential[] = {1, 20, 0, 0, 9, 9, 0, 0, 0};
    uint32_t handle[] = {24, 0x4e465333, key[0], key[1], file - 1, 0, file};
    size_t at = words(to, 0, head, 7);
    if (proc == 0) {
        uint32_t none[] = {0, 0, 0, 0};
        return words(to, at, none, 4);
    }
    return words(to, words(to, at, credential, 9), handle, 7);
}

static size_t finish(unsigned char *to, size_t at) {
    uint32_t mark = htonl((uint32_t)(0x80000000u | (at - 4)));
    memcpy(to, &mark, 4);
    return at;
}

/* The number of the directory with so many names, and a file for each, which stands after the smaller ones. */
static uint32_t file_of(unsigned count) {
    uint32_t file = 6;
    for (unsigned smaller = 1000; smaller < count; smaller *= 10) file += 1 + smaller;
    return file;
}

static void make_calls(const char *work) {
    if (strcmp(work, "null") == 0) {
        call_size = begin(call, 0, 0), reply_size = 28;
    } else if (strcmp(work, "getattr") == 0) {
        call_size = begin(call, 1, 3), reply_size = 28 + 4 + 84;
    } else if (strcmp(work, "lookup") == 0) {
        uint32_t name[] = {2, 0x66340000};
        call_size = words(call, begin(call, 3, 2), name, 2), reply_size = 28 + 4 + 28 + 88 + 88;
    } else if (strcmp(work, "access") == 0) {
        uint32_t rights[] = {63};
        call_size = words(call, begin(call, 4, 2), rights, 1), reply_size = 28 + 4 + 88 + 4;
    } else if (strncmp(work, "look", 4) == 0 && (names = (unsigned)strtoul(work + 4, NULL, 10)) > 0) {
        uint32_t name[] = {7, 0x6e303030, 0x30303000};
        call_size = words(call, begin(call, 3, file_of(names)), name, 3), reply_size = 28 + 4 + 28 + 88 + 88;
    } else if (strncmp(work, "remove", 6) == 0 && (names = (unsigned)strtoul(work + 6, NULL, 10)) > 0) {
        uint32_t name[] = {7, 0x6e303030, 0x30303000};
        call_size = words(call, begin(call, 12, file_of(names)), name, 3), reply_size = 28 + 4 + 28 + 88;
    } else if (strcmp(work, "list1000") == 0) {
        uint32_t page[] = {0, 0, 0, 0, 131072};
        call_size = words(call, begin(call, 16, file_of(1000)), page, 5), reply_size = 28 + 4 + 88 + 8 + 2 * 28 + 1000 * 32 + 8;
    } else if (strcmp(work, "plus1000") == 0) {
        /* Of the 65,536 bytes of the longest reply 104 are no entry's, `.` and `..` have 148, and a name has 152. */
        uint32_t page[] = {0, 0, 0, 0, 131072, 131072};
        call_size = words(call, begin(call, 17, file_of(1000)), page, 6), reply_size = 28 + 4 + 88 + 8 + 2 * 148 + 428 * 152 + 8;
    } else if (strcmp(work, "rename") == 0) {
        uint32_t from[] = {7, 0x6e303030, 0x30303000, 24, 0x4e465333, key[0], key[1], file_of(1000) - 1, 0, file_of(1000), 7, 0x6d303030, 0x30303000};
        size_t at = begin(call, 14, file_of(1000));
        renamed = at + 4;
        call_size = words(call, at, from, 13), reply_size = reply2_size = 28 + 4 + 116 + 116;
        memcpy(other, call, other_size = call_size);
        other[renamed] = 'm', other[renamed + RENAMED] = 'n';
        finish(other, other_size);
    } else if (strcmp(work, "read4") == 0) {
        uint32_t range[] = {offset[0], offset[1], 4096};
        call_size = words(call, begin(call, 6, 3), range, 3), reply_size = 28 + 4 + 88 + 12 + 4096;
    } else if (strcmp(work, "read64") == 0) {
        uint32_t range[] = {offset[0], offset[1], 65536};
        call_size = words(call, begin(call, 6, 4), range, 3), reply_size = 28 + 4 + 88 + 12 + 65536;
    } else if (strcmp(work, "write4") == 0) {
        uint32_t range[] = {offset[0], offset[1], 4096, 2, 4096};
        call_size = words(call, begin(call, 7, 3), range, 5) + 4096, reply_size = 28 + 4 + 28 + 88 + 16;
    } else if (strcmp(work, "write64") == 0) {
        uint32_t range[] = {offset[0], offset[1], 65536, 2, 65536};
        call_size = words(call, begin(call, 7, 4), range, 5) + 65536, reply_size = 28 + 4 + 28 + 88 + 16;
    } else if (strcmp(work, "read128") == 0) {
        uint32_t range[] = {offset[0], offset[1], 131072};
        call_size = words(call, begin(call, 6, 5), range, 3), reply_size = 28 + 4 + 88 + 12 + 131072;
    } else if (strcmp(work, "write128") == 0) {
        uint32_t range[] = {offset[0], offset[1], 131072, 2, 131072};
        call_size = words(call, begin(call, 7, 5), range, 5) + 131072, reply_size = 28 + 4 + 28 + 88 + 16;
    } else if (strcmp(work, "make-dir") == 0) {
        uint32_t made[] = {4, 0, 0, 0, 0, 0, 0, 0}, gone[] = {4, 0};
        call_size = words(call, begin(call, 9, 2), made, 8), reply_size = 28 + 4 + 32 + 88 + 28 + 88;
        other_size = words(other, begin(other, 13, 2), gone, 2), reply2_size = 28 + 4 + 28 + 88;
        finish(other, other_size);
    } else if (strcmp(work, "make") == 0) {
        uint32_t made[] = {4, 0, 1, 0, 0, 0, 0, 0, 0}, gone[] = {4, 0};
        call_size = words(call, begin(call, 8, 2), made, 9), reply_size = 28 + 4 + 32 + 88 + 28 + 88;
        other_size = words(other, begin(other, 12, 2), gone, 2), reply2_size = 28 + 4 + 28 + 88;
        finish(other, other_size);
    } else if (strcmp(work, "list") == 0) {
        /* READDIRPLUS from the beginning, of as much as there may be: the entries ., .., f4, f64 and f128. */
        uint32_t page[] = {0, 0, 0, 0, 131072, 131072};
        call_size = words(call, begin(call, 17, 2), page, 6), reply_size = 28 + 4 + 88 + 8 + 5 * (4 + 8 + 8 + 8 + 88 + 32) + 8;
    } else if (strcmp(work, "pages") == 0) {
        /* The longest reply of READDIRPLUS: of its 65,536 bytes 104 are no entry's, and an entry has 148. */
        uint32_t page[] = {0, 0, 0, 0, 131072, 131072};
        call_size = words(call, begin(call, 17, 6), page, 6), reply_size = 28 + 4 + 88 + 8 + 442 * (4 + 8 + 8 + 8 + 88 + 32) + 8;
    } else if (strcmp(work, "missing") == 0) {
        uint32_t name[] = {4, 0x6e6f6e65};
        call_size = words(call, begin(call, 3, 2), name, 2), reply_size = 28 + 4 + 88;
    } else if (strcmp(work, "denied") == 0) {
        call_size = begin(call, 1, 6), reply_size = 28 + 4;
    } else fail("no such work");
    finish(call, call_size);
}

/* Six digits of a name. */
static void digits(unsigned char *to, unsigned n) {
    for (int i = 5; i >= 0; i--, n /= 10) to[i] = (unsigned char)('0' + n % 10);
}

/* The k-th call of a client: its number, and the name, which is the client's own where it is changed. */
static void number(unsigned char *to, int client, unsigned k) {
    uint32_t xid = htonl(((uint32_t)client << 20) ^ (k & 0xfffff));
    memcpy(to + 4, &xid, 4);
    if (names > 0) {
        digits(to + 4 * (1 + 6 + 9 + 7) + 4 + 1, (k * 7919u + (unsigned)client * 104729u) % names);
    } else if (renamed > 0) {
        digits(to + renamed + 1, (unsigned)client), digits(to + renamed + RENAMED + 1, (unsigned)client);
    } else if (other_size > 0) {
        size_t at = 4 + 4 * (6 + 9 + 7) + 4;
        uint32_t name = htonl(0x61616161u + (uint32_t)client % 16 + ((uint32_t)client / 16 % 16 << 8) + (k / 2 % 16 << 16));
        memcpy(to + at, &name, 4);
    }
}

/* Sends what is to be sent, as much as the socket takes; what is under way is begun anew by none. */
static void send_calls(Client *c, int client, unsigned depth, unsigned calls) {
    while (c->sent < calls && c->sent - c->got < depth) {
        unsigned char *from = other_size > 0 && c->sent % 2 ? other : call;
        size_t size = other_size > 0 && c->sent % 2 ? other_size : call_size;
        unsigned n = 1;
        if (c->out == 0) {
            number(from, client, c->sent);
            c->begun[c->sent % depth] = now();
            /* Small calls go out together. */
            if (size * 2 <= MOST && depth > 1 && other_size == 0) {
                unsigned left = depth - (c->sent - c->got);
                if (left > calls - c->sent) left = calls - c->sent;
                for (; n < left && (n + 1) * size <= MOST; n++) {
                    memcpy(room + n * size, call, size);
                    number(room + n * size, client, c->sent + n);
                    c->begun[(c->sent + n) % depth] = c->begun[c->sent % depth];
                }
                memcpy(room, call, size);
                from = room;
            }
        } else number(from, client, c->sent);
        ssize_t put = send(c->peer, from + c->out, n * size - c->out, MSG_NOSIGNAL);
        if (put < 0 && errno == EAGAIN) return;
        if (put <= 0) fail("it can't be sent");
        c->out += (size_t)put;
        while (c->out >= size) c->out -= size, c->sent++;
        if (c->out > 0) return;
    }
}

/* Adds some bytes of a reply to its sum, without those of its number. */
static void add(Client *c, const unsigned char *bytes, size_t n) {
    for (size_t i = 0; i < n; i++)
        if (c->in + i < 4 || c->in + i >= 8) c->sum = (c->sum ^ bytes[i]) * 1099511628211u;
}

static void take(Client *c, int client, const unsigned char *bytes, size_t n, unsigned depth, int echo, int alike) {
    while (n > 0) {
        size_t whole = other_size > 0 && c->got % 2 ? reply2_size : reply_size;
        size_t some = whole - c->in < n ? whole - c->in : n;
        for (size_t i = c->in; i < 8 && i < c->in + some; i++) c->head[i] = bytes[i - c->in];
        if (alike) add(c, bytes, some);
        c->in += some, bytes += some, n -= some;
        uint32_t mark, xid;
        memcpy(&mark, c->head, 4);
        if (!echo && c->in >= 4 && (ntohl(mark) & 0x7fffffff) != whole - 4) fail("a reply of another length");
        if (c->in < whole) return;
        if (!echo) {
            memcpy(&xid, c->head + 4, 4);
            if (ntohl(xid) != (((uint32_t)client << 20) ^ (c->got & 0xfffff))) fail("a reply to another call");
        }
        if (alike && c->got == 0) c->first = c->sum;
        if (alike && c->sum != c->first) fail("a reply unlike the first");
        c->sum = 0;
        if (measured < TIMES) times[measured++] = now() - c->begun[c->got % depth];
        c->got++, c->in = 0;
    }
}

static int by_size(const void *a, const void *b) {
    double x = *(const double *)a, y = *(const double *)b;
    return x < y ? -1 : x > y;
}

int main(int count, char **w) {
    if (count < 6) fail("load PORT WORK CLIENTS DEPTH CALLS [echo|alike]");
    int clients = atoi(w[3]), echo = count > 6 && strcmp(w[6], "echo") == 0, alike = count > 6 && !echo, poll = epoll_create1(0), left = clients;
    unsigned depth = (unsigned)atoi(w[4]), calls = (unsigned)atoi(w[5]);
    static unsigned char in[1 << 18];
    struct sockaddr_in to = {.sin_family = AF_INET, .sin_port = htons((unsigned short)atoi(w[1]))};
    Client *all = calloc((size_t)clients, sizeof *all);
    int idle = strcmp(w[2], "idle") == 0;
    read_key(key);
    unsigned long long from = strtoull(getenv("NFS3D_OFFSET") ? getenv("NFS3D_OFFSET") : "0", NULL, 10);
    offset[0] = (uint32_t)(from >> 32), offset[1] = (uint32_t)from;
    if (!idle) make_calls(w[2]);
    to.sin_addr.s_addr = htonl(INADDR_LOOPBACK);
    for (int i = 0; i < clients; i++) {
        int yes = 1;
        struct epoll_event e = {.events = EPOLLIN | EPOLLOUT | EPOLLET, .data.u32 = (uint32_t)i};
        all[i].begun = calloc(depth, sizeof(double));
        all[i].peer = socket(AF_INET, SOCK_STREAM, 0);
        if (connect(all[i].peer, (struct sockaddr *)&to, sizeof to) != 0) fail("no connection");
        setsockopt(all[i].peer, IPPROTO_TCP, TCP_NODELAY, &yes, sizeof yes);
        fcntl(all[i].peer, F_SETFL, O_NONBLOCK);
        epoll_ctl(poll, EPOLL_CTL_ADD, all[i].peer, &e);
    }
    if (idle) {
        printf("ready\n");
        fflush(stdout);
        return getchar() != EOF;
    }
    double began = now();
    while (left > 0) {
        struct epoll_event events[256];
        int n = epoll_wait(poll, events, 256, 20000);
        if (n <= 0) fail("nothing comes");
        for (int i = 0; i < n; i++) {
            int client = (int)events[i].data.u32;
            Client *c = all + client;
            if (c->got >= calls) continue;
            send_calls(c, client, depth, calls);
            for (ssize_t got; (got = recv(c->peer, in, sizeof in, 0)) != 0;) {
                if (got < 0 && errno == EAGAIN) break;
                if (got < 0) fail("it can't be read");
                take(c, client, in, (size_t)got, depth, echo, alike);
                send_calls(c, client, depth, calls);
            }
            if (c->got >= calls) left--, close(c->peer);
        }
    }
    double took = now() - began;
    qsort(times, measured, sizeof *times, by_size);
    printf("%.2f %.0f\n", took / ((double)clients * calls), times[measured * 99 / 100]);
    return 0;
}
