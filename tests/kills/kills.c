/* Kills a server with a journal again and again under ten clients: kills PROGRAM TREE JOURNAL LIVES SEED. Each client has a
 * directory of its own in the first volume of TREE, /a, and a model of what was answered to it: names, handles and bytes. It
 * has one call under way at a time. In each life the server is killed after some replies. In the next one each client sends
 * the call that was answered last once more, and has to get the same bytes; then the one that was under way, which has to
 * succeed, whether it had been executed or not. Then the directory has to have the names of the model and no others, with the
 * handles of earlier lives, and each file its bytes. All else is reported, with status 1. It prints how many lives there were,
 * how many calls were answered, and how many were under way at a kill. */
#include <netinet/in.h>
#include <netinet/tcp.h>
#include <poll.h>
#include <signal.h>
#include <stdint.h>
#include <stdio.h>
#include <stdlib.h>
#include <string.h>
#include <sys/socket.h>
#include <sys/wait.h>
#include <unistd.h>

enum { CLIENTS = 10, FILES = 12, BYTES = 256, HANDLE = 24, MOST_RECORD = 1024, REPLY = 16384, NFS = 100003, MOUNT = 100005 };

enum { MNT = 1, GETATTR = 1, SETATTR, LOOKUP, READ = 6, WRITE, CREATE, MKDIR, REMOVE = 12, RMDIR, RENAME, READDIRPLUS = 17 };

#include "../records.h"

typedef struct {
    int is_there, is_dir;
    uint32_t name, size;
    unsigned char handle[HANDLE], bytes[BYTES];
} File;

/* What a call changes, once it is answered. */
typedef struct {
    uint32_t proc, slot, name, offset, size;
    unsigned char bytes[BYTES];
} Change;

typedef struct {
    unsigned char bytes[REPLY];
    size_t len, at;
} Reply;

typedef struct {
    int peer, has_dir, is_pending, has_last;
    uint32_t xid, next_name;
    unsigned char dir[HANDLE];
    File files[FILES];
    Record pending, last;
    Reply first, reply;
    Change change;
} Client;

static Client clients[CLIENTS];
static unsigned char root[HANDLE], verifier[8];
static int has_verifier;
static unsigned long answered, under_way;
static pid_t server;
static unsigned short port;
static int printed;

static void fail(int who, const char *what, long number) {
    fprintf(stderr, "kills: client %d: %s (%ld)\n", who, what, number);
    if (server > 0) kill(server, SIGKILL);
    exit(1);
}

/* ---- records */

static void name_of(Record *r, uint32_t name) {
    char text[16];
    int len = snprintf(text, sizeof text, "n%u", name);
    opaque(r, text, (uint32_t)len);
}

/* The head of a call of the user 0, with room for its record mark. */
static void begin(Record *r, uint32_t xid, uint32_t program, uint32_t proc) {
    r->len = 0;
    word(r, 0), word(r, xid), word(r, 0), word(r, 2), word(r, program), word(r, 3), word(r, proc);
    word(r, 1), word(r, 20), word(r, 0), word(r, 0), word(r, 0), word(r, 0), word(r, 0), word(r, 0), word(r, 0);
}

static void finish(Record *r) {
    uint32_t mark = htonl(0x80000000u | (uint32_t)(r->len - 4));
    memcpy(r->bytes, &mark, 4);
}

/* No attribute is set but perhaps the size. */
static void settings(Record *r, int has_size, uint32_t size) {
    word(r, 0), word(r, 0), word(r, 0), word(r, (uint32_t)has_size);
    if (has_size) word(r, 0), word(r, size);
    word(r, 0), word(r, 0);
}

/* ---- replies */

static uint32_t next(Client *c, Reply *r) {
    uint32_t w;
    if (r->at + 4 > r->len) fail((int)(c - clients), "a reply is too short", (long)r->len);
    memcpy(&w, r->bytes + r->at, 4);
    r->at += 4;
    return ntohl(w);
}

static void over(Client *c, Reply *r, size_t len) {
    if (r->at + len > r->len) fail((int)(c - clients), "a reply is too short", (long)r->len);
    r->at += len;
}

static void handle(Client *c, Reply *r, unsigned char *to) {
    if (next(c, r) != HANDLE) fail((int)(c - clients), "a handle of another length", 0);
    over(c, r, HANDLE);
    memcpy(to, r->bytes + r->at - HANDLE, HANDLE);
}

static void attributes(Client *c, Reply *r) {
    if (next(c, r)) over(c, r, 84);
}

static void wcc(Client *c, Reply *r) {
    if (next(c, r)) over(c, r, 24);
    attributes(c, r);
}

/* Goes over the head of a reply. Its status. */
static uint32_t status(Client *c, Reply *r, uint32_t xid) {
    r->at = 0;
    if (next(c, r) != xid) fail((int)(c - clients), "a reply to another call", xid);
    if (next(c, r) != 1 || next(c, r) != 0) fail((int)(c - clients), "a reply that is none", xid);
    over(c, r, 8);
    if (next(c, r) != 0) fail((int)(c - clients), "a call that was not executed", xid);
    return next(c, r);
}

/* Whether a whole reply came; 0 where the connection ended. */
static int take(Client *c, Reply *r) {
    unsigned char mark[4];
    size_t at = 0;
    for (; at < 4;) {
        ssize_t n = recv(c->peer, mark + at, 4 - at, 0);
        if (n <= 0) return 0;
        at += (size_t)n;
    }
    r->len = ((size_t)(mark[0] & 0x7f) << 24) | (size_t)mark[1] << 16 | (size_t)mark[2] << 8 | mark[3];
    if (r->len > REPLY) fail((int)(c - clients), "a reply is too long", (long)r->len);
    for (at = 0; at < r->len;) {
        ssize_t n = recv(c->peer, r->bytes + at, r->len - at, 0);
        if (n <= 0) return 0;
        at += (size_t)n;
    }
    return 1;
}

static int send_record(Client *c, const Record *r) {
    for (size_t at = 0; at < r->len;) {
        ssize_t n = send(c->peer, r->bytes + at, r->len - at, MSG_NOSIGNAL);
        if (n <= 0) return 0;
        at += (size_t)n;
    }
    return 1;
}

/* Sends a call that changes nothing, and takes its reply, which has to be OK. */
static void ask(Client *c, Record *r, Reply *reply) {
    finish(r);
    if (!send_record(c, r) || !take(c, reply)) fail((int)(c - clients), "the connection ended", 0);
    uint32_t got = status(c, reply, c->xid);
    if (got != 0) fail((int)(c - clients), "a call that changes nothing is refused", got);
}

/* ---- calls that change something */

static uint32_t slot_of(Client *c, int is_there) {
    uint32_t slot = any(FILES);
    for (uint32_t i = 0; i < FILES; i++, slot = (slot + 1) % FILES)
        if (c->files[slot].is_there == is_there) return slot;
    return FILES;
}

static void make(Client *c, uint32_t proc) {
    c->change.slot = slot_of(c, 0);
    c->change.name = c->next_name++;
    opaque(&c->pending, c->dir, HANDLE);
    name_of(&c->pending, c->change.name);
    if (proc == CREATE) word(&c->pending, 1);
    settings(&c->pending, 0, 0);
}

static void write_some(Client *c, const File *f) {
    c->change.offset = any(f->size + 1);
    uint32_t most = BYTES - c->change.offset;
    c->change.size = most ? 1 + any(most < 64 ? most : 64) : 0;
    for (uint32_t i = 0; i < c->change.size; i++) c->change.bytes[i] = (unsigned char)any(256);
    opaque(&c->pending, f->handle, HANDLE);
    word(&c->pending, 0), word(&c->pending, c->change.offset), word(&c->pending, c->change.size), word(&c->pending, 2);
    opaque(&c->pending, c->change.bytes, c->change.size);
}

/* The next call of a client, at random, and what it changes. */
static void prepare(Client *c) {
    uint32_t slot = slot_of(c, 1);
    uint32_t choice = any(10);
    const File *f = slot < FILES ? &c->files[slot] : 0;
    uint32_t proc;
    if (!c->has_dir) proc = MKDIR;
    else if (!f || (choice < 3 && slot_of(c, 0) < FILES)) proc = any(4) ? CREATE : MKDIR;
    else if (choice < 4) proc = f->is_dir ? RMDIR : REMOVE;
    else if (choice < 5) proc = RENAME;
    else if (f->is_dir) proc = RENAME;
    else proc = choice < 6 ? SETATTR : WRITE;
    memset(&c->change, 0, sizeof c->change);
    c->change.proc = proc, c->change.slot = slot;
    begin(&c->pending, ++c->xid, NFS, proc);
    if (!c->has_dir) {
        opaque(&c->pending, root, HANDLE);
        name_of(&c->pending, (uint32_t)(c - clients));
        settings(&c->pending, 0, 0);
    } else if (proc == CREATE || proc == MKDIR) make(c, proc);
    else if (proc == WRITE) write_some(c, f);
    else if (proc == SETATTR) {
        c->change.size = any(BYTES + 1);
        opaque(&c->pending, f->handle, HANDLE);
        settings(&c->pending, 1, c->change.size);
        word(&c->pending, 0);
    } else {
        opaque(&c->pending, c->dir, HANDLE);
        name_of(&c->pending, f->name);
        if (proc == RENAME) {
            c->change.name = c->next_name++;
            opaque(&c->pending, c->dir, HANDLE);
            name_of(&c->pending, c->change.name);
        }
    }
    finish(&c->pending);
    c->is_pending = 1;
}

static void check_write(Client *c, Reply *r, uint32_t size) {
    wcc(c, r);
    if (next(c, r) != size) fail((int)(c - clients), "another number of bytes was written", size);
    if (next(c, r) != 2) fail((int)(c - clients), "not written FILE_SYNC", 0);
    over(c, r, 8);
    if (has_verifier && memcmp(verifier, r->bytes + r->at - 8, 8)) fail((int)(c - clients), "another write verifier", 0);
    memcpy(verifier, r->bytes + r->at - 8, 8);
    has_verifier = 1;
}

static void change_file(Client *c, Reply *r, File *f) {
    const Change *change = &c->change;
    switch (change->proc) {
    case CREATE:
    case MKDIR:
        memset(f, 0, sizeof *f);
        f->is_there = 1, f->is_dir = change->proc == MKDIR, f->name = change->name;
        if (!next(c, r)) fail((int)(c - clients), "a new file without a handle", 0);
        handle(c, r, f->handle);
        break;
    case WRITE:
        check_write(c, r, change->size);
        memcpy(f->bytes + change->offset, change->bytes, change->size);
        if (f->size < change->offset + change->size) f->size = change->offset + change->size;
        break;
    case SETATTR:
        if (f->size < change->size) memset(f->bytes + f->size, 0, change->size - f->size);
        f->size = change->size;
        break;
    case RENAME: f->name = change->name; break;
    default: f->is_there = 0;
    }
}

/* The call that was under way is answered: the model has what it changed. */
static void answer(Client *c) {
    Reply *r = &c->reply;
    uint32_t got = status(c, r, c->xid);
    if (got != 0) fail((int)(c - clients), "a call is refused", (long)(c->change.proc * 100000 + got));
    if (c->has_dir) change_file(c, r, &c->files[c->change.slot]);
    else {
        if (!next(c, r)) fail((int)(c - clients), "a directory without a handle", 0);
        handle(c, r, c->dir);
        c->has_dir = 1;
    }
    c->last = c->pending, c->first = c->reply, c->has_last = 1, c->is_pending = 0;
    answered++;
}

/* ---- lives */

static void start(const char *program, const char *tree, const char *journal) {
    int ends[2];
    if (pipe(ends) != 0) fail(-1, "no pipe", 0);
    server = fork();
    if (server == 0) {
        dup2(ends[1], 1), close(ends[0]), close(ends[1]);
        execl(program, program, "serve", tree, "--journal", journal, "--port", "0", (char *)0);
        _exit(127);
    }
    close(ends[1]);
    char line[256] = "";
    size_t at = 0;
    while (at + 1 < sizeof line && read(ends[0], line + at, 1) == 1 && line[at] != '\n') at++;
    line[at] = 0;
    printed = ends[0];
    const char *colon = strrchr(line, ':');
    if (!colon || strncmp(line, "listening ", 10)) fail(-1, "the server doesn't listen", 0);
    port = (unsigned short)atoi(colon + 1);
}

static void end_server(void) {
    kill(server, SIGKILL);
    waitpid(server, 0, 0);
    close(printed);
}

static void join(Client *c) {
    struct sockaddr_in to = {.sin_family = AF_INET, .sin_port = htons(port), .sin_addr.s_addr = htonl(INADDR_LOOPBACK)};
    int yes = 1;
    c->peer = socket(AF_INET, SOCK_STREAM, 0);
    if (c->peer < 0 || connect(c->peer, (struct sockaddr *)&to, sizeof to) != 0) fail((int)(c - clients), "the server can't be reached", 0);
    setsockopt(c->peer, IPPROTO_TCP, TCP_NODELAY, &yes, sizeof yes);
}

/* Mounts /a. The handle has to be that of earlier lives. */
static void mount(Client *c, int is_first) {
    unsigned char found[HANDLE];
    Record r;
    Reply reply;
    begin(&r, ++c->xid, MOUNT, MNT);
    opaque(&r, "/a", 2);
    ask(c, &r, &reply);
    handle(c, &reply, found);
    if (!is_first && memcmp(root, found, HANDLE)) fail((int)(c - clients), "another handle of the volume", 0);
    memcpy(root, found, HANDLE);
}

/* Sends the last call that was answered once more, and then the one that was under way. */
static void send_again(Client *c) {
    uint32_t xid = c->xid;
    if (c->has_last) {
        if (!send_record(c, &c->last) || !take(c, &c->reply)) fail((int)(c - clients), "the connection ended", 0);
        if (c->reply.len != c->first.len || memcmp(c->reply.bytes, c->first.bytes, c->first.len))
            fail((int)(c - clients), "a retransmission gets another reply", xid);
    }
    if (c->is_pending) {
        if (!send_record(c, &c->pending) || !take(c, &c->reply)) fail((int)(c - clients), "the connection ended", 0);
        answer(c);
    }
}

static void check_entries(Client *c, Reply *r) {
    uint32_t found = 0, wanted = 0;
    attributes(c, r), over(c, r, 8);
    while (next(c, r)) {
        unsigned char of[HANDLE];
        char text[64];
        over(c, r, 8);
        uint32_t len = next(c, r);
        if (len >= sizeof text) fail((int)(c - clients), "a long name", len);
        over(c, r, (len + 3) & ~3u);
        memcpy(text, r->bytes + r->at - ((len + 3) & ~3u), len), text[len] = 0;
        over(c, r, 8), attributes(c, r);
        int has_handle = next(c, r) != 0;
        if (has_handle) handle(c, r, of);
        if (text[0] == '.') continue;
        uint32_t i = 0;
        for (; i < FILES; i++)
            if (c->files[i].is_there && c->files[i].name == (uint32_t)atoi(text + 1)) break;
        if (i == FILES) fail((int)(c - clients), "a name that no call made", atoi(text + 1));
        if (!has_handle || memcmp(of, c->files[i].handle, HANDLE)) fail((int)(c - clients), "another handle", atoi(text + 1));
        found++;
    }
    if (!next(c, r)) fail((int)(c - clients), "a directory that is too long", 0);
    for (uint32_t i = 0; i < FILES; i++) wanted += (uint32_t)c->files[i].is_there;
    if (found != wanted) fail((int)(c - clients), "a name is lost", (long)wanted - (long)found);
}

static void check_bytes(Client *c, const File *f) {
    Record r;
    Reply reply;
    begin(&r, ++c->xid, NFS, READ);
    opaque(&r, f->handle, HANDLE);
    word(&r, 0), word(&r, 0), word(&r, BYTES);
    ask(c, &r, &reply);
    attributes(c, &reply);
    uint32_t count = next(c, &reply);
    over(c, &reply, 8);
    if (count != f->size || memcmp(reply.bytes + reply.at, f->bytes, count)) fail((int)(c - clients), "a file has other bytes", f->name);
}

/* The directory of a client is as its model says. */
static void check(Client *c) {
    Record r;
    Reply reply;
    if (!c->has_dir) return;
    begin(&r, ++c->xid, NFS, READDIRPLUS);
    opaque(&r, c->dir, HANDLE);
    word(&r, 0), word(&r, 0), word(&r, 0), word(&r, 0), word(&r, 8192), word(&r, 8192);
    ask(c, &r, &reply);
    check_entries(c, &reply);
    for (uint32_t i = 0; i < FILES; i++)
        if (c->files[i].is_there && !c->files[i].is_dir) check_bytes(c, &c->files[i]);
}

/* Clients send calls until so many replies came, and then the server is killed. What came before that is answered. */
static void live(unsigned replies) {
    struct pollfd polls[CLIENTS];
    for (int i = 0; i < CLIENTS; i++) {
        prepare(&clients[i]);
        if (!send_record(&clients[i], &clients[i].pending)) fail(i, "the connection ended", 0);
        polls[i] = (struct pollfd){.fd = clients[i].peer, .events = POLLIN};
    }
    while (replies > 0) {
        if (poll(polls, CLIENTS, 10000) <= 0) fail(-1, "no reply within ten seconds", 0);
        for (int i = 0; i < CLIENTS && replies > 0; i++) {
            if (!polls[i].revents) continue;
            if (!take(&clients[i], &clients[i].reply)) fail(i, "the connection ended", 0);
            answer(&clients[i]), replies--;
            prepare(&clients[i]);
            if (!send_record(&clients[i], &clients[i].pending)) fail(i, "the connection ended", 0);
        }
    }
    if (any(2)) usleep(any(1500));
    end_server();
    for (int i = 0; i < CLIENTS; i++) {
        if (take(&clients[i], &clients[i].reply)) answer(&clients[i]);
        else under_way++;
    }
}

int main(int argc, char **argv) {
    if (argc < 6) fail(-1, "kills PROGRAM TREE JOURNAL LIVES SEED", argc);
    int lives = atoi(argv[4]);
    seed = strtoull(argv[5], 0, 10) * 0x9E3779B97F4A7C15ULL | 1;
    signal(SIGPIPE, SIG_IGN);
    for (int i = 0; i < CLIENTS; i++) clients[i].xid = (uint32_t)(i + 1) << 24;
    for (int life = 0; life <= lives; life++) {
        start(argv[1], argv[2], argv[3]);
        for (int i = 0; i < CLIENTS; i++) {
            Client *c = &clients[i];
            join(c);
            send_again(c);
            mount(c, life == 0 && i == 0);
            c->has_last = 0;
            check(c);
        }
        if (life < lives) live(any(40));
        for (int i = 0; i < CLIENTS; i++) close(clients[i].peer);
    }
    end_server();
    printf("%d lives, %lu calls answered, %lu under way at a kill\n", lives, answered, under_way);
    return 0;
}
