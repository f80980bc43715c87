/* Asks a server about the handles of its earlier lives. STATE is a file with a line for each handle:
 *   HANDLE described|made TYPE LABEL PATH   as 48 hexadecimal digits, a number of NFS, and words
 * lives gather PORT STATE LABEL         mounts each volume, walks it by READDIRPLUS, and adds each file of each name to STATE.
 *                                       A file was made by a client where its number is above 2^32.
 * lives make PORT STATE N SEED          makes N files and directories in random directories, named by SEED, writes its own
 *                                       path into each file, and adds them to STATE under the label `client`
 * lives ask PORT STATE CASES SEED LABEL walks the tree as it is now, by READDIRPLUS and by LOOKUP; then sends GETATTR, and READ
 *                                       for a regular file, for CASES random handles of STATE
 * Each of them has to be stale, or to name the file that has the handle's path now, with its bytes, which are the path of one
 * of its names. All else is reported, with status 1. `ask` prints how many handles were live and stale: all, those that were
 * described and made, and those that were described under LABEL and under other labels. */
#include <arpa/inet.h>
#include <netinet/in.h>
#include <netinet/tcp.h>
#include <stdint.h>
#include <stdio.h>
#include <stdlib.h>
#include <string.h>
#include <sys/socket.h>
#include <sys/time.h>
#include <unistd.h>

enum { HANDLE = 24, WINDOW = 64, CALL = 4096, REPLY = 1 << 18, PATH = 2048, LONGEST = 4096, NFS = 100003, MOUNT = 100005, STALE = 70, REG = 1, DIR = 2 };

/* A file as it is now, by one of its names, or a handle of STATE. */
typedef struct {
    unsigned char handle[HANDLE];
    int is_made;
    uint32_t type, length;
    uint64_t fsid, fileid;
    char *path, *label, *bytes;
} File;

typedef struct {
    File *all;
    size_t count, room;
} Files;

/* The replies to the calls that are under way, by their order. */
typedef struct {
    unsigned char *bytes;
    size_t length, at;
} Reply;

static int peer;
static uint32_t xid;
static unsigned char out[WINDOW * CALL];
static size_t filled, start;
static unsigned pending;
static Reply replies[WINDOW];

static void fail(const char *what, const char *path) {
    fprintf(stderr, "lives: %s%s%s\n", what, path ? ": " : "", path ? path : "");
    exit(1);
}

static void *must(void *room) {
    if (!room) fail("no memory", 0);
    return room;
}

static File *more(Files *files) {
    if (files->count == files->room) {
        files->room = files->room ? files->room * 2 : 256;
        files->all = must(realloc(files->all, files->room * sizeof(File)));
    }
    memset(files->all + files->count, 0, sizeof(File));
    return files->all + files->count++;
}

/* xorshift64*, so that a seed determines all cases. */
static uint64_t seed;
static uint32_t any(uint32_t below) {
    seed ^= seed >> 12, seed ^= seed << 25, seed ^= seed >> 27;
    return below ? (uint32_t)((seed * 0x2545F4914F6CDD1DULL) >> 33) % below : 0;
}
static void set_seed(const char *text) { seed = strtoull(text, 0, 10) * 0x9E3779B97F4A7C15ULL | 1; }

/* ---- calls */

static void word(uint32_t w) {
    w = htonl(w);
    memcpy(out + filled, &w, 4);
    filled += 4;
}

static void opaque(const void *bytes, size_t length) {
    word((uint32_t)length);
    memset(out + filled, 0, (length + 3) & ~(size_t)3);
    memcpy(out + filled, bytes, length);
    filled += (length + 3) & ~(size_t)3;
}

/* Begins a call as the user 0; what is put after it are its arguments, until `done`. */
static void begin(uint32_t program, uint32_t procedure) {
    if (pending == WINDOW) fail("too many calls", 0);
    start = filled;
    word(0), word(++xid), word(0), word(2), word(program), word(3), word(procedure);
    word(1), word(20), word(0), word(0), word(0), word(0), word(0), word(0), word(0);
}
static void begin_at(uint32_t procedure, const File *f) { begin(NFS, procedure), opaque(f->handle, HANDLE); }

static void done(void) {
    uint32_t mark = htonl(0x80000000u | (uint32_t)(filled - start - 4));
    memcpy(out + start, &mark, 4);
    pending++;
}

static void take(unsigned char *to, size_t length) {
    for (size_t at = 0; at < length;) {
        ssize_t n = recv(peer, to + at, length - at, 0);
        if (n <= 0) fail("the connection ended", 0);
        at += (size_t)n;
    }
}

static uint32_t next(Reply *r) {
    uint32_t w;
    if (r->at + 4 > r->length) fail("a reply is too short", 0);
    memcpy(&w, r->bytes + r->at, 4);
    r->at += 4;
    return ntohl(w);
}
static uint64_t next_long(Reply *r) {
    uint64_t high = next(r);
    return high << 32 | next(r);
}
static const unsigned char *next_opaque(Reply *r, uint32_t *length) {
    *length = next(r);
    size_t all = ((size_t)*length + 3) & ~(size_t)3;
    if (r->at + all > r->length) fail("a reply is too short", 0);
    r->at += all;
    return r->bytes + r->at - all;
}

/* Sends the calls, and takes a reply to each: what stands after the head of RPC is left. */
static unsigned send_all(void) {
    for (size_t at = 0; at < filled;) {
        ssize_t n = send(peer, out + at, filled - at, MSG_NOSIGNAL);
        if (n <= 0) fail("calls can't be sent", 0);
        at += (size_t)n;
    }
    unsigned count = pending;
    for (unsigned i = 0; i < count; i++) {
        Reply *r = replies + i;
        uint32_t mark;
        take((unsigned char *)&mark, 4);
        mark = ntohl(mark);
        r->length = mark & 0x7fffffff, r->at = 0;
        if (!(mark >> 31) || r->length > REPLY) fail("a reply of another form", 0);
        if (!r->bytes) r->bytes = must(malloc(REPLY));
        take(r->bytes, r->length);
        if (next(r) != xid - count + 1 + i) fail("a reply to another call", 0);
        if (next(r) != 1 || next(r) != 0 || next(r) != 0 || next(r) != 0 || next(r) != 0) fail("a call is refused", 0);
    }
    filled = 0, pending = 0;
    return count;
}

/* ---- results */

static void attributes(Reply *r, File *f) {
    f->type = next(r);
    for (int i = 0; i < 10; i++) next(r);
    f->fsid = next_long(r), f->fileid = next_long(r);
    for (int i = 0; i < 6; i++) next(r);
}
static int attributes_if_any(Reply *r, File *f) {
    if (next(r) == 0) return 0;
    attributes(r, f);
    return 1;
}
static void skip_attributes(Reply *r) {
    File unused;
    attributes_if_any(r, &unused);
}
static void handle_of(Reply *r, File *f) {
    uint32_t length;
    const unsigned char *bytes = next_opaque(r, &length);
    if (length != HANDLE) fail("a handle of another length", f->path);
    memcpy(f->handle, bytes, HANDLE);
    f->is_made = memcmp(f->handle + 16, "\0\0\0\0", 4) != 0;
}

/* ---- the tree as it is now */

static Files tree;

static char *joined(const char *path, const void *name, size_t length) {
    char *whole = must(malloc(strlen(path) + length + 2));
    sprintf(whole, "%s/%.*s", path, (int)length, (const char *)name);
    return whole;
}

/* The entries of a directory, page by page: their handles and attributes. */
static void list(size_t dir) {
    uint64_t cookie = 0, verifier = 0;
    for (int is_end = 0; !is_end;) {
        begin_at(17, tree.all + dir);
        word((uint32_t)(cookie >> 32)), word((uint32_t)cookie), word((uint32_t)(verifier >> 32)), word((uint32_t)verifier), word(4096), word(32768);
        done(), send_all();
        Reply *r = replies;
        if (next(r) != 0) fail("a directory can't be listed", tree.all[dir].path);
        skip_attributes(r);
        verifier = next_long(r);
        size_t first = tree.count;
        while (next(r)) {
            File f = {0};
            uint32_t length;
            uint64_t fileid = next_long(r);
            const unsigned char *name = next_opaque(r, &length);
            cookie = next_long(r);
            int is_dot = (length == 1 && name[0] == '.') || (length == 2 && name[0] == '.' && name[1] == '.');
            f.path = joined(tree.all[dir].path, name, length);
            int is_told = attributes_if_any(r, &f), has_handle = (int)next(r);
            if (has_handle) handle_of(r, &f);
            if (is_dot) {
                free(f.path);
                continue;
            }
            if (!is_told || !has_handle) fail("an entry has no attributes or no handle", f.path);
            if (f.fileid != fileid) fail("an entry and its attributes have two fileids", f.path);
            *more(&tree) = f;
        }
        is_end = (int)next(r);
        if (!is_end && first == tree.count && cookie == 0) fail("a page without entries", tree.all[dir].path);
    }
}

static void walk(void) {
    begin(MOUNT, 5), done(), send_all();
    Files volumes = {0};
    while (next(replies)) {
        uint32_t length;
        const unsigned char *path = next_opaque(replies, &length);
        File *v = more(&volumes);
        v->path = must(calloc(length + 1, 1));
        memcpy(v->path, path, length);
        while (next(replies)) next_opaque(replies, &length);
    }
    for (size_t i = 0; i < volumes.count; i++) {
        File *f = more(&tree);
        f->path = volumes.all[i].path;
        begin(MOUNT, 1), opaque(f->path, strlen(f->path)), done(), send_all();
        if (next(replies) != 0) fail("a volume can't be mounted", f->path);
        handle_of(replies, f);
        begin_at(1, f), done(), send_all();
        if (next(replies) != 0) fail("a root has no attributes", f->path);
        attributes(replies, f);
    }
    for (size_t i = 0; i < tree.count; i++) if (tree.all[i].type == DIR) list(i);
}

static int by_path(const void *a, const void *b) { return strcmp(((const File *)a)->path, ((const File *)b)->path); }
static const File *find(const char *path) {
    File key = {.path = (char *)path};
    return bsearch(&key, tree.all, tree.count, sizeof(File), by_path);
}

/* Each path goes by LOOKUP to the file that READDIRPLUS reports, and the bytes of each regular file are read. */
static void compare(void) {
    qsort(tree.all, tree.count, sizeof(File), by_path);
    for (size_t i = 0, n; i < tree.count; i += n) {
        size_t last = tree.count - i < WINDOW / 2 ? tree.count : i + WINDOW / 2;
        for (n = 0; i + n < last; n++) {
            File *f = tree.all + i + n;
            const char *name = strrchr(f->path, '/');
            char above[PATH];
            snprintf(above, sizeof above, "%.*s", (int)(name - f->path), f->path);
            const File *parent = find(above);
            if (parent) begin_at(3, parent), opaque(name + 1, strlen(name + 1)), done();
            else begin_at(1, f), done();
            if (f->type == REG) begin_at(6, f), word(0), word(0), word(LONGEST), done();
        }
        send_all();
        Reply *r = replies;
        for (n = 0; i + n < last; n++) {
            File *f = tree.all + i + n, seen = {.path = f->path};
            char above[PATH];
            snprintf(above, sizeof above, "%.*s", (int)(strrchr(f->path, '/') - f->path), f->path);
            if (next(r) != 0) fail("a path leads nowhere", f->path);
            if (find(above)) {
                handle_of(r, &seen);
                if (!attributes_if_any(r, &seen)) fail("a path leads to a file without attributes", f->path);
                if (memcmp(seen.handle, f->handle, HANDLE) != 0) fail("LOOKUP and READDIRPLUS tell two handles", f->path);
            } else attributes(r, &seen);
            if (seen.fileid != f->fileid || seen.fsid != f->fsid || seen.type != f->type) fail("LOOKUP and READDIRPLUS tell two files", f->path);
            r++;
            if (f->type != REG) continue;
            if (next(r) != 0) fail("a file can't be read", f->path);
            skip_attributes(r);
            next(r);
            if (!next(r)) fail("a file is longer than a path", f->path);
            const unsigned char *bytes = next_opaque(r, &f->length);
            f->bytes = must(calloc(f->length + 1, 1));
            memcpy(f->bytes, bytes, f->length);
            r++;
        }
    }
    for (size_t i = 0; i < tree.count; i++) {
        File *f = tree.all + i;
        if (f->type != REG) continue;
        const File *named = find(f->bytes);
        if (!named || named->fileid != f->fileid || strlen(f->bytes) != f->length) fail("a file has other bytes than the path of one of its names", f->path);
    }
}

/* ---- the file of handles */

static void add(FILE *state, const File *f, const char *label) {
    for (int i = 0; i < HANDLE; i++) fprintf(state, "%02x", f->handle[i]);
    fprintf(state, " %s %u %s %s\n", f->is_made ? "made" : "described", f->type, label, f->path);
}

static FILE *opened(const char *name, const char *mode) {
    FILE *state = fopen(name, mode);
    if (!state) fail("it can't be opened", name);
    return state;
}

static void closed(FILE *state, const char *name) {
    if (fclose(state) != 0) fail("it can't be written", name);
}

static void gather(const char *name, const char *label) {
    walk();
    FILE *state = opened(name, "a");
    for (size_t i = 0; i < tree.count; i++) add(state, tree.all + i, label);
    closed(state, name);
    printf("files=%zu\n", tree.count);
}

static void make(const char *name, unsigned count, const char *life) {
    walk();
    Files dirs = {0};
    for (size_t i = 0; i < tree.count; i++) if (tree.all[i].type == DIR) *more(&dirs) = tree.all[i];
    FILE *state = opened(name, "a");
    for (unsigned k = 0; k < count; k++) {
        File f = {0};
        char own[64];
        const File *dir = dirs.all + any((uint32_t)dirs.count);
        int is_dir = any(5) == 0;
        snprintf(own, sizeof own, "life%s-%u", life, k);
        f.path = joined(dir->path, own, strlen(own));
        begin_at(is_dir ? 9 : 8, dir), opaque(own, strlen(own));
        if (!is_dir) word(0);
        word(1), word(is_dir ? 0777 : 0666), word(0), word(0), word(0), word(0), word(0);
        done(), send_all();
        if (next(replies) != 0) fail("a file can't be made", f.path);
        if (next(replies) != 1) fail("a new file has no handle", f.path);
        handle_of(replies, &f);
        if (!attributes_if_any(replies, &f) || f.type != (is_dir ? DIR : REG)) fail("a new file is another", f.path);
        if (!f.is_made) fail("a new file has a number of a described one", f.path);
        if (is_dir) *more(&dirs) = f;
        else {
            size_t length = strlen(f.path);
            begin_at(7, &f), word(0), word(0), word((uint32_t)length), word(2), opaque(f.path, length), done(), send_all();
            if (next(replies) != 0) fail("a new file can't be written", f.path);
        }
        add(state, &f, "client");
    }
    closed(state, name);
    printf("made=%u\n", count);
}

static void ask(const char *name, unsigned cases, const char *label) {
    static char digits[64], kind[16], of[64], path[PATH];
    Files asked = {0};
    unsigned type;
    FILE *state = opened(name, "r");
    while (fscanf(state, "%63s %15s %u %63s %2047s", digits, kind, &type, of, path) == 5) {
        File *f = more(&asked);
        for (int i = 0; i < HANDLE; i++) {
            unsigned byte;
            if (sscanf(digits + 2 * i, "%2x", &byte) != 1) fail("a faulty line of handles", path);
            f->handle[i] = (unsigned char)byte;
        }
        f->is_made = strcmp(kind, "made") == 0, f->type = type;
        f->path = must(strdup(path)), f->label = must(strdup(of));
    }
    if (!feof(state) || asked.count == 0) fail("faulty lines of handles, or none", name);
    fclose(state);
    walk();
    compare();
    enum { DESCRIBED, MADE, SAME, OTHER, KINDS };
    unsigned long counts[KINDS][2] = {{0}};
    for (unsigned made = 0; made < cases;) {
        const File *drawn[WINDOW / 2];
        unsigned n = 0;
        for (; n < WINDOW / 2 && made + n < cases; n++) {
            const File *f = drawn[n] = asked.all + any((uint32_t)asked.count);
            begin_at(1, f), done();
            if (f->type == REG) begin_at(6, f), word(0), word(0), word(LONGEST), done();
        }
        send_all();
        Reply *r = replies;
        for (unsigned i = 0; i < n; i++) {
            const File *f = drawn[i], *now = find(f->path);
            File seen = {0};
            uint32_t status = next(r), length;
            if (status != 0 && status != STALE) fail("GETATTR of a handle has another status", f->path);
            if (status == 0) {
                attributes(r, &seen);
                if (!now || now->fileid != seen.fileid || now->fsid != seen.fsid || now->type != seen.type) fail("a handle names another file", f->path);
            }
            r++;
            if (f->type == REG) {
                if (next(r) != status) fail("GETATTR and READ of a handle have two statuses", f->path);
                skip_attributes(r);
                if (status == 0) {
                    next(r), next(r);
                    const unsigned char *bytes = next_opaque(r, &length);
                    if (length != now->length || memcmp(bytes, now->bytes, length) != 0) fail("a handle has other bytes", f->path);
                }
                r++;
            }
            int is_stale = status == STALE;
            counts[f->is_made ? MADE : DESCRIBED][is_stale]++;
            if (!f->is_made) counts[strcmp(f->label, label) == 0 ? SAME : OTHER][is_stale]++;
        }
        made += n;
    }
    printf("cases=%u live=%lu stale=%lu described=%lu/%lu made=%lu/%lu same=%lu/%lu other=%lu/%lu\n", cases, counts[DESCRIBED][0] + counts[MADE][0],
        counts[DESCRIBED][1] + counts[MADE][1], counts[DESCRIBED][0], counts[DESCRIBED][1], counts[MADE][0], counts[MADE][1], counts[SAME][0],
        counts[SAME][1], counts[OTHER][0], counts[OTHER][1]);
}

int main(int count, char **w) {
    const char *usage = "gather PORT STATE LABEL, make PORT STATE N SEED, or ask PORT STATE CASES SEED LABEL";
    if (count < 5) fail(usage, 0);
    struct sockaddr_in to = {.sin_family = AF_INET, .sin_port = htons((unsigned short)atoi(w[2])), .sin_addr.s_addr = htonl(INADDR_LOOPBACK)};
    struct timeval limit = {.tv_sec = 20};
    int yes = 1;
    peer = socket(AF_INET, SOCK_STREAM, 0);
    setsockopt(peer, SOL_SOCKET, SO_RCVTIMEO, &limit, sizeof limit);
    if (peer < 0 || connect(peer, (struct sockaddr *)&to, sizeof to) != 0) fail("no connection", 0);
    setsockopt(peer, IPPROTO_TCP, TCP_NODELAY, &yes, sizeof yes);
    if (strcmp(w[1], "gather") == 0 && count == 5) gather(w[3], w[4]);
    else if (strcmp(w[1], "make") == 0 && count == 6) set_seed(w[5]), make(w[3], (unsigned)atoi(w[4]), w[5]);
    else if (strcmp(w[1], "ask") == 0 && count == 7) set_seed(w[5]), ask(w[3], (unsigned)atoi(w[4]), w[6]);
    else fail(usage, 0);
    return 0;
}
