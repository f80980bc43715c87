/* The baselines of GETATTR, LOOKUP and READ: the same calls over the same files, written plainly; and
 * those of the arguments of procedures, read into structures.
 *
 * A call is read word by word with its bounds tested, as in plain.c; its credential is read and
 * squashed, its handle compared and looked up in a sorted array, the address looked up among the
 * patterns of the exports, rights and names are tested, and the reply is written with its mark.
 */
#include "files.h"
#include <stdio.h>

enum { CALLS = 5000000, READS = 200000, RUNS = 5, MAX_READ = 131072 };
static int may_search(const struct ids *ids, const struct file *file) { return rights(ids, file) & 1; }

static int may_read(const struct ids *ids, const struct file *file) { return ids->uid == file->uid || (rights(ids, file) & 5) != 0; }

static uint32_t look_up(const struct server *s, const struct ids *ids, const struct file *dir, struct bytes name, const struct file **found) {
    uint64_t number = 0;
    if (dir->type != 2)
        return 20;
    if (!may_search(ids, dir))
        return 13;
    if (name.len > 255)
        return 63;
    if (name.len == 0)
        return 13;
    for (uint32_t i = 0; i < name.len; i++)
        if (name.at[i] == 0 || name.at[i] == '/')
            return 13;
    if (name.len == 1 && name.at[0] == '.')
        number = dir->number;
    else if (name.len == 2 && memcmp(name.at, "..", 2) == 0)
        number = dir->parent;
    for (size_t i = 0; number == 0 && i < dir->count; i++)
        if (dir->entries[i].len == name.len && memcmp(dir->entries[i].name, name.at, name.len) == 0)
            number = dir->entries[i].number;
    *found = number ? find(s, number) : NULL;
    return *found ? 0 : 2;
}

static unsigned char *write_found(const struct server *s, unsigned char *at, const struct file *found) {
    at = put(at, HANDLE);
    memcpy(at, "NFS3", 4);
    memcpy(at + 4, s->key, 8);
    at = put64(put(at + 12, 0), found->number);
    return shown(at, found);
}

static unsigned char *write_data(unsigned char *at, const struct file *file, uint64_t offset, uint32_t count) {
    uint64_t left = offset < file->size ? file->size - offset : 0;
    uint32_t n = count < MAX_READ ? count : MAX_READ;
    n = left < n ? (uint32_t)left : n;
    at = put(put(put(shown(at, file), n), left <= n), n);
    memcpy(at, file->bytes + offset, n);
    memset(at + n, 0, (4 - n % 4) % 4);
    return at + n + (4 - n % 4) % 4;
}

/* what a call asks for beside its handle */
struct asked {
    struct bytes name;
    uint64_t offset;
    uint32_t count;
};

static unsigned char *perform(const struct server *s, uint32_t address, uint32_t proc, struct ids *ids, struct bytes handle, const struct asked *asked, unsigned char *at) {
    const struct file *file = NULL, *found = NULL;
    const struct export *e = NULL;
    uint32_t status = named(s, handle, &file);
    if (status == 0 && !(e = grant(s, file->volume, address)))
        status = 13;
    if (status != 0)
        file = NULL;
    if (proc == 1) {
        at = put(at, status);
        return file ? attributes(at, file) : at;
    }
    if (file) {
        squash(e, ids);
        if (proc == 3)
            status = look_up(s, ids, file, asked->name, &found);
        else
            status = file->type != 1 ? 22 : may_read(ids, file) ? 0 : 13;
    }
    at = put(at, status);
    if (status == 0 && proc == 6)
        return write_data(at, file, asked->offset, asked->count);
    if (status == 0)
        at = write_found(s, at, found);
    return shown(at, file);
}

__attribute__((noinline, noclone)) static size_t answer(const struct server *s, uint32_t address, const unsigned char *record, size_t len, unsigned char *reply) {
    struct input in = {record, len};
    uint32_t xid, kind, rpcvers, prog, vers, proc, flavor, other, stat = 0;
    struct bytes body, verifier, handle = {NULL, 0};
    struct asked asked = {{NULL, 0}, 0, 0};
    uint32_t high, low;
    struct ids ids;
    ids.uid = ids.gid = ids.count = 0;
    if (!get(&in, &xid) || !get(&in, &kind) || kind != 0 || !get(&in, &rpcvers) || !get(&in, &prog) || !get(&in, &vers) ||
        !get(&in, &proc) || !get(&in, &flavor) || !opaque(&in, 400, &body) || !get(&in, &other) || !opaque(&in, 400, &verifier))
        return 0;
    if (rpcvers != 2)
        return 0;
    if (prog != 100003)
        stat = 1;
    else if (vers != 3)
        stat = 2;
    else if (proc != 1 && proc != 3 && proc != 6)
        stat = 3;
    else if (flavor != 1 || !read_ids(body, &ids))
        return 0;
    else if (!opaque(&in, 64, &handle) || (proc == 3 && !opaque(&in, UINT32_MAX, &asked.name)))
        stat = 4;
    else if (proc == 6) {
        if (!get(&in, &high) || !get(&in, &low) || !get(&in, &asked.count))
            stat = 4;
        else
            asked.offset = (uint64_t)high << 32 | low;
    }
    unsigned char *at = put(put(put64(put(put(reply + 4, xid), 1), 0), 0), stat);
    if (stat == 0)
        at = perform(s, address, proc, &ids, handle, &asked, at);
    put(reply, 0x80000000u | (uint32_t)(at - reply - 4));
    return at - reply - 4;
}

/* ---- the arguments of procedures */

struct time_setting {
    uint32_t how;
    struct moment moment;
};

struct settings {
    int has_mode, has_uid, has_gid, has_size;
    uint32_t mode, uid, gid;
    uint64_t size;
    struct time_setting atime, mtime;
};

struct place {
    struct bytes dir, name;
};

struct args {
    uint32_t procedure;
    union {
        struct bytes file, path;
        struct place place;
        struct { struct bytes file; struct settings settings; int guarded; struct moment guard; } setattr;
        struct { struct bytes file; uint64_t offset; uint32_t count; } range;
        struct { struct bytes file; uint64_t offset; uint32_t stable; struct bytes content; } write;
        struct { struct place place; uint32_t how; union { struct settings settings; struct bytes verifier; }; } create;
        struct { struct place place; struct settings settings; struct bytes path; } symlink;
        struct { struct place from, to; } rename;
        struct { struct bytes dir; uint64_t cookie; struct bytes verifier; uint32_t dircount, maxcount; } entries;
    };
};

static int get64(struct input *in, uint64_t *n) {
    uint32_t high, low;
    if (in->left < 8 || !get(in, &high) || !get(in, &low))
        return 0;
    *n = (uint64_t)high << 32 | low;
    return 1;
}

static int boolean(struct input *in, int *truth) {
    uint32_t n;
    if (!get(in, &n) || n > 1)
        return 0;
    *truth = n == 1;
    return 1;
}

static int enumeration(struct input *in, uint32_t max, uint32_t *n) { return get(in, n) && *n <= max; }

static int fixed(struct input *in, uint32_t n, struct bytes *b) {
    if (in->left < n)
        return 0;
    *b = (struct bytes){in->at, n};
    in->at += n;
    in->left -= n;
    return 1;
}

static int moment(struct input *in, struct moment *m) { return get(in, &m->seconds) && get(in, &m->nanos); }

static int time_setting(struct input *in, struct time_setting *t) {
    return enumeration(in, 2, &t->how) && (t->how != 2 || moment(in, &t->moment));
}

static int settings(struct input *in, struct settings *s) {
    return boolean(in, &s->has_mode) && (!s->has_mode || get(in, &s->mode)) && boolean(in, &s->has_uid) && (!s->has_uid || get(in, &s->uid)) &&
           boolean(in, &s->has_gid) && (!s->has_gid || get(in, &s->gid)) && boolean(in, &s->has_size) && (!s->has_size || get64(in, &s->size)) &&
           time_setting(in, &s->atime) && time_setting(in, &s->mtime);
}

static int handle(struct input *in, struct bytes *b) { return opaque(in, 64, b); }

static int string(struct input *in, struct bytes *b) { return opaque(in, UINT32_MAX, b); }

static int place(struct input *in, struct place *p) { return handle(in, &p->dir) && string(in, &p->name); }

__attribute__((noinline, noclone)) static int read_nfs(const unsigned char *record, size_t len, struct args *args) {
    struct input in = {record, len};
    uint32_t count;
    if (!get(&in, &args->procedure))
        return 0;
    switch (args->procedure) {
    case 1:
        return handle(&in, &args->file);
    case 2:
        return handle(&in, &args->setattr.file) && settings(&in, &args->setattr.settings) && boolean(&in, &args->setattr.guarded) &&
               (!args->setattr.guarded || moment(&in, &args->setattr.guard));
    case 3:
        return place(&in, &args->place);
    case 6:
        return handle(&in, &args->range.file) && get64(&in, &args->range.offset) && get(&in, &args->range.count);
    case 7:
        return handle(&in, &args->write.file) && get64(&in, &args->write.offset) && get(&in, &count) && enumeration(&in, 2, &args->write.stable) &&
               string(&in, &args->write.content) && args->write.content.len == count;
    case 8:
        return place(&in, &args->create.place) && enumeration(&in, 2, &args->create.how) &&
               (args->create.how == 2 ? fixed(&in, 8, &args->create.verifier) : settings(&in, &args->create.settings));
    case 10:
        return place(&in, &args->symlink.place) && settings(&in, &args->symlink.settings) && string(&in, &args->symlink.path);
    case 14:
        return place(&in, &args->rename.from) && place(&in, &args->rename.to);
    case 17:
        return handle(&in, &args->entries.dir) && get64(&in, &args->entries.cookie) && fixed(&in, 8, &args->entries.verifier) &&
               get(&in, &args->entries.dircount) && get(&in, &args->entries.maxcount);
    default:
        return 0;
    }
}

__attribute__((noinline, noclone)) static int read_mount(const unsigned char *record, size_t len, struct args *args) {
    struct input in = {record, len};
    return get(&in, &args->procedure) && args->procedure <= 5 && (args->procedure % 2 == 0 || args->procedure == 5 || string(&in, &args->path));
}

/* ---- the files of examples/e.tree and one for READ, and what is measured */

static const struct entry in_a[] = {{"pub", 3, 2}, {"g", 1, 5}, {"own", 3, 6}, {"zero", 4, 7}};
static const struct entry in_pub[] = {{"x", 1, 3}, {"n", 1, 4}, {"large", 5, 9}};
static unsigned char large[MAX_READ];
static const struct file files[] = {
    {1, 2, 0755, 4, 0, 0, 4096, 0, {0}, {0}, {0}, 1, in_a, 4, NULL},
    {2, 2, 0777, 2, 1, 1, 4096, 0, {0}, {0}, {0}, 1, in_pub, 3, NULL},
    {3, 1, 0711, 1, 1, 1, 5, 0, {0}, {0}, {0}, 0, NULL, 0, NULL},
    {4, 1, 0710, 1, 1, 1, 5, 0, {0}, {0}, {0}, 0, NULL, 0, NULL},
    {5, 1, 0640, 1, 1, 0, 2, 0, {0}, {0}, {0}, 0, NULL, 0, NULL},
    {6, 2, 0007, 2, 5, 5, 4096, 0, {0}, {0}, {0}, 1, NULL, 0, NULL},
    {7, 1, 0, 1, 5, 5, 0, 0, {0}, {0}, {0}, 0, NULL, 0, NULL},
    {8, 2, 0777, 2, 0, 0, 4096, 1, {0}, {0}, {0}, 8, NULL, 0, NULL},
    {9, 1, 0644, 1, OWNER, OWNER, MAX_READ, 0, {0}, {0}, {0}, 0, NULL, 0, large},
};
static const struct export exports[] = {
    {0, 0x0a000000, 24, ROOT, 65534, 65534},
    {0, 0x0a000100, 24, NOBODY, 65534, 65534},
    {0, 0x0a000209, 32, ALL, 7, 7},
    {1, 0x0a000000, 24, NOBODY, 65534, 65534},
};

static void measure(const char *what, const struct server *s, unsigned char *record, size_t len, uint32_t calls) {
    static unsigned char reply[294912];
    uint64_t least = UINT64_MAX;
    volatile size_t bytes = 0;
    for (int run = 0; run < RUNS; run++) {
        uint64_t start = now();
        for (uint32_t xid = 0; xid < calls; xid++) {
            put(record, xid);
            bytes += answer(s, 0x0a000001, record, len, reply);
        }
        uint64_t time = (now() - start) / (calls / 10);
        least = time < least ? time : least;
    }
    printf("%s %llu.%llu\n", what, (unsigned long long)(least / 10), (unsigned long long)(least % 10));
}

/* the parts of records, one after another */
static const unsigned char handle_part[28] = {0, 0, 0, HANDLE, 'N', 'F', 'S', '3', 1, 2, 3, 4, 5, 6, 7, 8, 0, 0, 0, 0, 0, 0, 0, 0, 0, 0, 0, 9};
static const unsigned char name_part[8] = {0, 0, 0, 2, 'a', 'b'};
static const unsigned char settings_part[52] = {0, 0, 0, 1, 0, 0, 1, 0xa4, 0, 0, 0, 1, 0, 0, 3, 0xe8, 0, 0, 0, 1, 0, 0, 0, 100, 0, 0, 0, 1,
                                                0, 0, 0, 0, 0, 0, 16, 0, 0, 0, 0, 1, 0, 0, 0, 2, 0, 0, 0, 100, 0, 0, 0, 5};
static const unsigned char guard_part[12] = {0, 0, 0, 1, 0, 0, 0, 7, 0, 0, 0, 8};
static const unsigned char guarded_part[4] = {0, 0, 0, 1};
static const unsigned char path_part[12] = {0, 0, 0, 6, '/', 'x', '/', 'y', '/', 'z'};
static const unsigned char range_part[12] = {0, 0, 0, 0, 0, 0, 0, 0, 0, 0, 16, 0};
static const unsigned char written_part[20 + 4096] = {0, 0, 0, 0, 0, 0, 0, 0, 0, 0, 16, 0, 0, 0, 0, 2, 0, 0, 16, 0};
static const unsigned char entries_part[24] = {0, 0, 0, 0, 0, 0, 0, 3, 1, 2, 3, 4, 5, 6, 7, 8, 0, 0, 2, 0, 0, 0, 32, 0};

#define PART(name) {name##_part, sizeof name##_part}
static const struct {
    const char *name;
    uint32_t procedure;
    struct bytes parts[4];
} arguments[] = {
    {"getattr", 1, {PART(handle)}},
    {"setattr", 2, {PART(handle), PART(settings), PART(guard)}},
    {"lookup", 3, {PART(handle), PART(name)}},
    {"read", 6, {PART(handle), PART(range)}},
    {"write", 7, {PART(handle), PART(written)}},
    {"create", 8, {PART(handle), PART(name), PART(guarded), PART(settings)}},
    {"symlink", 10, {PART(handle), PART(name), PART(settings), PART(path)}},
    {"rename", 14, {PART(handle), PART(name), PART(handle), PART(name)}},
    {"readdirplus", 17, {PART(handle), PART(entries)}},
    {"mnt", 1, {PART(path)}},
};

/* the least of many short runs, so that what else runs disturbs few */
static void measure_arguments(size_t i) {
    static unsigned char record[8192];
    int mount = strcmp(arguments[i].name, "mnt") == 0;
    unsigned char *end = put(record, arguments[i].procedure);
    uint64_t least = UINT64_MAX;
    volatile uint32_t read = 0;
    for (size_t part = 0; part < 4 && arguments[i].parts[part].at; part++) {
        memcpy(end, arguments[i].parts[part].at, arguments[i].parts[part].len);
        end += arguments[i].parts[part].len;
    }
    for (int run = 0; run < 100; run++) {
        uint64_t start = now();
        uint32_t count = 0;
        for (uint32_t round = 0; round < 100000; round++) {
            struct args args;
            record[8] = (unsigned char)round;
            count += mount ? read_mount(record, end - record, &args) : read_nfs(record, end - record, &args);
        }
        uint64_t time = (now() - start) / 10000;
        least = time < least ? time : least;
        read += count;
    }
    printf("args-%s %llu.%llu\n", read == 10000000 ? arguments[i].name : "unreadable", (unsigned long long)(least / 10), (unsigned long long)(least % 10));
}

int main(void) {
    const struct server s = {{1, 2, 3, 4, 5, 6, 7, 8}, 10, files, sizeof files / sizeof *files, exports, sizeof exports / sizeof *exports};
    memset(large, 7, sizeof large);
    unsigned char call[100] = {
        0, 0, 0, 42, 0, 0, 0, 0, 0, 0, 0, 2, 0, 1, 0x86, 0xa3, 0, 0, 0, 3, 0, 0, 0, 1,
        0, 0, 0, 1, 0, 0, 0, 20, 0, 0, 0, 0, 0, 0, 0, 0, 0, 0, 0, OWNER, 0, 0, 0, OWNER, 0, 0, 0, 0, 0, 0, 0, 0, 0, 0, 0, 0,
        0, 0, 0, HANDLE, 'N', 'F', 'S', '3', 1, 2, 3, 4, 5, 6, 7, 8, 0, 0, 0, 0, 0, 0, 0, 0, 0, 0, 0, 9, 0, 0, 0, 1, 'x'};
    measure("getattr", &s, call, 88, CALLS);
    call[23] = 3;
    call[87] = 2;
    measure("lookup", &s, call, 96, CALLS);
    call[23] = 6;
    call[87] = 9;
    memset(call + 88, 0, 12);
    call[98] = 0x10;
    measure("read-4096", &s, call, 100, READS);
    call[98] = 0;
    call[97] = 1;
    measure("read-65536", &s, call, 100, READS);
    call[97] = 2;
    measure("read-131072", &s, call, 100, READS);
    for (size_t i = 0; i < sizeof arguments / sizeof *arguments; i++)
        measure_arguments(i);
    return 0;
}
