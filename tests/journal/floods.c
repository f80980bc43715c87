/* Brings a server more calls at once than one append of its journal takes, and asks later for what they made. Of CLIENTS
 * clients, 1, 2 .., client N calls for file N + 1:
 *   floods PORT write CLIENTS CALLS PROCESS    writes CALLS times 65,536 bytes to it, one range after another
 *   floods PORT create CLIENTS CALLS PROCESS   creates CALLS files in it, of lengths of their own
 *   floods PORT written CLIENTS CALLS          reads what was written
 *   floods PORT created CLIENTS CALLS          looks up what was created
 * No client waits for a reply before it sends its next call. With PROCESS, the server's, all clients have had a reply, and then
 * the process is stopped until no client's socket takes more: so much of what they send is there in one round.
 *   floods PORT cycles 1 CALLS                 CALLS times ten calls of nine procedures on file 1, a directory, and file 2, by
 *                                              one, two, three and four at once, each after the replies to those before
 * Each call has to succeed, and the replies have to come in order. What isn't so is reported, with status 1. The key in the
 * handles is that of NFS3D_KEY (clients/key.h). */
#include <arpa/inet.h>
#include <errno.h>
#include <netinet/in.h>
#include <netinet/tcp.h>
#include <poll.h>
#include <signal.h>
#include <stdint.h>
#include <stdio.h>
#include <stdlib.h>
#include <string.h>
#include <sys/socket.h>
#include <unistd.h>
#include "../../clients/key.h"

enum { BYTES = 65536, MOST = 256, REPLY = BYTES + 1024, PATIENCE = 120000 };

enum { NULLS, SETATTR = 2, LOOKUP, READ = 6, WRITE, CREATE, MKDIR, SYMLINK, REMOVE = 12, RMDIR, RENAME, LINK };

typedef struct {
    int peer;
    unsigned char *out, in[REPLY];
    size_t room, len, sent, got;
    unsigned calls, replies;
} Client;

static Client clients[MOST];
static struct pollfd polls[MOST];
static int count;
static const char *work;
static uint32_t key[2];

static void fail(int client, const char *what, unsigned long number) {
    fprintf(stderr, "floods: client %d: %s (%lu)\n", client + 1, what, number);
    exit(1);
}

/* ---- calls */

static void put(Client *c, const void *bytes, size_t len) {
    if (c->len + len > c->room) c->out = realloc(c->out, c->room = (c->len + len) * 2);
    if (!c->out) fail((int)(c - clients), "no memory", c->room);
    memcpy(c->out + c->len, bytes, len);
    c->len += len;
}

static void word(Client *c, uint32_t w) {
    w = htonl(w);
    put(c, &w, 4);
}

static void opaque(Client *c, const void *bytes, uint32_t len) {
    word(c, len);
    put(c, bytes, len);
    put(c, "\0\0\0", -len & 3);
}

static void name(Client *c, char kind, int client, unsigned k) {
    char text[32];
    opaque(c, text, (uint32_t)snprintf(text, sizeof text, "%c%d-%u", kind, client, k));
}

static void handle(Client *c, uint32_t file) {
    word(c, 24), word(c, 0x4e465333), word(c, key[0]), word(c, key[1]), word(c, file - 1), word(c, 0), word(c, file);
}

/* A call of the user 0, and the place of its record mark. */
static size_t begin(Client *c, uint32_t proc) {
    size_t mark = c->len;
    word(c, 0), word(c, (uint32_t)(c - clients) << 20 | c->calls++);
    word(c, 0), word(c, 2), word(c, 100003), word(c, 3), word(c, proc);
    word(c, 1), word(c, 20), word(c, 0), word(c, 0), word(c, 0), word(c, 0), word(c, 0), word(c, 0), word(c, 0);
    return mark;
}

static void finish(Client *c, size_t mark) {
    uint32_t w = htonl(0x80000000u | (uint32_t)(c->len - mark - 4));
    memcpy(c->out + mark, &w, 4);
}

/* No attribute is set but perhaps the size. */
static void settings(Client *c, uint32_t size) {
    word(c, 0), word(c, 0), word(c, 0), word(c, size > 0);
    if (size > 0) word(c, 0), word(c, size);
    word(c, 0), word(c, 0);
}

/* What each client writes at each place, and how long each file is. */
static unsigned char byte_at(int client, unsigned k, unsigned i) { return (unsigned char)((unsigned)client * 37 + k * 11 + i + i / 256 * 3 + 1); }
static uint32_t size_of(int client, unsigned k) { return (uint32_t)(k % 1000 + 1 + (unsigned)client); }

static void prepare(Client *c, unsigned k) {
    static unsigned char bytes[BYTES];
    int client = (int)(c - clients), writes = strcmp(work, "write") == 0;
    size_t mark = begin(c, writes ? WRITE : strcmp(work, "written") == 0 ? READ : strcmp(work, "create") == 0 ? CREATE : LOOKUP);
    if (writes || strcmp(work, "written") == 0) {
        handle(c, (uint32_t)client + 2);
        word(c, 0), word(c, k * BYTES), word(c, BYTES);
        for (unsigned i = 0; i < BYTES; i++) bytes[i] = byte_at(client, k, i);
        if (writes) word(c, 2), opaque(c, bytes, BYTES);
    } else {
        handle(c, (uint32_t)client + 2);
        name(c, 'c', client, k);
        if (strcmp(work, "create") == 0) word(c, 0), settings(c, size_of(client, k));
    }
    finish(c, mark);
}

/* The calls of a cycle, of which all leave a symbolic link behind. */
static void prepare_in_cycle(Client *c, unsigned k, unsigned at) {
    static const uint32_t procs[] = {MKDIR, CREATE, SYMLINK, WRITE, LINK, SETATTR, RENAME, REMOVE, REMOVE, RMDIR};
    uint32_t proc = procs[at];
    size_t mark = begin(c, proc);
    handle(c, proc == WRITE || proc == LINK || proc == SETATTR ? 2 : 1);
    switch (at) {
    case 0: name(c, 'd', 0, k), settings(c, 0); break;
    case 1: name(c, 'f', 0, k), word(c, 0), settings(c, k); break;
    case 2: name(c, 'l', 0, k), settings(c, 0), name(c, 't', 0, k); break;
    case 3: word(c, 0), word(c, k), word(c, 3), word(c, 2), opaque(c, "abc", 3); break;
    case 4: handle(c, 1), name(c, 'h', 0, k); break;
    case 5: settings(c, k + 1), word(c, 0); break;
    case 6: name(c, 'f', 0, k), handle(c, 1), name(c, 'g', 0, k); break;
    case 7: name(c, 'g', 0, k); break;
    case 8: name(c, 'h', 0, k); break;
    default: name(c, 'd', 0, k);
    }
    finish(c, mark);
}

/* ---- replies */

static uint32_t number(const unsigned char *at) { return (uint32_t)at[0] << 24 | (uint32_t)at[1] << 16 | (uint32_t)at[2] << 8 | at[3]; }

/* The reply to call K of a client, without its record mark: the call succeeded, and what it says is as it has to be. */
static void judge(int client, unsigned k, const unsigned char *reply, size_t len) {
    int is_null = strcmp(work, "null") == 0;
    if (len < (is_null ? 24 : 28)) fail(client, "a short reply", len);
    if (number(reply) != ((uint32_t)client << 20 | clients[client].replies)) fail(client, "a reply to another call", number(reply));
    if (number(reply + 4) != 1 || number(reply + 8) != 0 || number(reply + 20) != 0) fail(client, "a call that is not accepted", k);
    if (is_null) return;
    const unsigned char *at = reply + 28, *end = reply + len;
    if (number(reply + 24) != 0) fail(client, "a call that fails", number(reply + 24));
    if (strcmp(work, "write") == 0) {
        if (len != 28 + 28 + 88 + 16 || number(at + 116) != BYTES || number(at + 120) != 2) fail(client, "less was written", k);
    } else if (strcmp(work, "written") == 0) {
        if (len != 28 + 88 + 12 + BYTES || number(at + 88) != BYTES) fail(client, "less is there", k);
        for (unsigned i = 0; i < BYTES; i++)
            if (end[(int)i - BYTES] != byte_at(client, k, i)) fail(client, "another byte", k * BYTES + i);
    } else if (strcmp(work, "created") == 0) {
        if (len < 28 + 28 + 88 || number(at + 28) != 1 || number(at + 28 + 4 + 20) != 0 || number(at + 28 + 4 + 24) != size_of(client, k))
            fail(client, "a file of another length", k);
    }
}

/* What has come of a client's replies. */
static void take(int client, unsigned first) {
    Client *c = clients + client;
    ssize_t some = recv(c->peer, c->in + c->got, sizeof c->in - c->got, MSG_DONTWAIT);
    if (some < 0 && (errno == EAGAIN || errno == EINTR)) return;
    if (some <= 0) fail(client, "the connection ended before its reply", c->replies);
    c->got += (size_t)some;
    size_t from = 0;
    for (size_t len; c->got - from >= 4 && c->got - from - 4 >= (len = number(c->in + from) & 0x7fffffff); from += len + 4) {
        judge(client, c->replies - first, c->in + from + 4, len);
        c->replies++;
    }
    memmove(c->in, c->in + from, c->got -= from);
}

/* ---- connections */

static void join(int client, int port) {
    struct sockaddr_in to = {.sin_family = AF_INET, .sin_port = htons((unsigned short)port), .sin_addr.s_addr = htonl(INADDR_LOOPBACK)};
    int peer = socket(AF_INET, SOCK_STREAM, 0), yes = 1;
    if (peer < 0 || connect(peer, (struct sockaddr *)&to, sizeof to) != 0) fail(client, "no connection", (unsigned long)errno);
    setsockopt(peer, IPPROTO_TCP, TCP_NODELAY, &yes, sizeof yes);
    clients[client].peer = peer;
}

/* Sends what a client's socket takes. Whether it took something. */
static int send_some(int client) {
    Client *c = clients + client;
    if (c->sent == c->len) return 0;
    ssize_t some = send(c->peer, c->out + c->sent, c->len - c->sent, MSG_DONTWAIT | MSG_NOSIGNAL);
    if (some < 0 && errno != EAGAIN) fail(client, "it can't be sent", (unsigned long)errno);
    c->sent += some > 0 ? (size_t)some : 0;
    return some > 0;
}

/* Sends all, and takes all replies; those of this work begin at a client's reply FIRST. */
static void exchange(unsigned first) {
    for (;;) {
        int left = 0;
        for (int i = 0; i < count; i++) {
            Client *c = clients + i;
            int is_done = c->replies == c->calls;
            polls[i] = (struct pollfd){.fd = is_done ? -1 : c->peer, .events = (short)(POLLIN | (c->sent < c->len ? POLLOUT : 0))};
            left += !is_done;
        }
        if (left == 0) return;
        if (poll(polls, (nfds_t)count, PATIENCE) <= 0) fail(-1, "nothing comes; clients that wait", (unsigned long)left);
        for (int i = 0; i < count; i++) {
            if (polls[i].revents & POLLOUT) send_some(i);
            if (polls[i].revents & ~POLLOUT) take(i, first);
        }
    }
}

/* Each client gets a reply. */
static void greet(void) {
    const char *after = work;
    work = "null";
    for (int i = 0; i < count; i++) finish(clients + i, begin(clients + i, NULLS));
    exchange(0);
    work = after;
}

/* Fills all sockets while the server stands still. */
static void fill(pid_t process) {
    if (kill(process, SIGSTOP) != 0) fail(-1, "no such process", (unsigned long)process);
    for (int took = 1; took;) {
        took = 0;
        for (int i = 0; i < count; i++) took |= send_some(i);
    }
    kill(process, SIGCONT);
}

static void cycles(unsigned calls) {
    for (unsigned k = 0; k < calls; k++) {
        for (unsigned at = 0, some = 1; at < 10; at += some, some++) {
            for (unsigned i = 0; i < some; i++) prepare_in_cycle(clients, k, at + i);
            exchange(0);
        }
    }
}

int main(int words, char **w) {
    if (words < 5) {
        fprintf(stderr, "usage: floods PORT WORK CLIENTS CALLS [PROCESS]\n");
        return 2;
    }
    work = w[2], count = atoi(w[3]);
    unsigned calls = (unsigned)atoi(w[4]);
    pid_t process = words > 5 ? (pid_t)atoi(w[5]) : 0;
    if (count < 1 || count > MOST || calls >= 1 << 20) fail(-1, "too many clients or calls", calls);
    read_key(key);
    for (int i = 0; i < count; i++) join(i, atoi(w[1]));
    if (strcmp(work, "cycles") == 0) {
        cycles(calls);
        return 0;
    }
    greet();
    for (int i = 0; i < count; i++)
        for (unsigned k = 0; k < calls; k++) prepare(clients + i, k);
    if (process > 0) fill(process);
    exchange(1);
    return 0;
}
