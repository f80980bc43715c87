/* The baselines of calls that name many files, in an order that wanders: the same calls, written plainly.
 *
 * The files stand in an array, in directories of the same size; a handle tells the slot of its file, and a directory's names
 * stand in a table that their hashes index. A name, and a file's bytes, are allocated.
 */
#include "files.h"
#include <stdio.h>
#include <stdlib.h>

enum { STRIDE = 618041, CALLS = 1000000, RUNS = 5, ADDRESS = 0x0a000001, MAX_READ = 131072 };

struct place {
    unsigned char handle[HANDLE], name[4];
};

static struct file *files;
static size_t count, table;
static uint32_t dirs, each;
static struct server s = {{1, 2, 3, 4, 5, 6, 7, 8}, 0, NULL, 0, (const struct export[]){{0, 0x0a000000, 24, ROOT, 65534, 65534}}, 1};

/* ---- files and names */

static void *some(size_t number, size_t bytes) {
    void *at = calloc(number, bytes);
    if (!at)
        exit(1);
    return at;
}

static struct entry *entry_of(const struct file *dir, const unsigned char *name, size_t len) {
    uint32_t hash = 2166136261u;
    for (size_t i = 0; i < len; i++)
        hash = (hash ^ name[i]) * 16777619u;
    struct entry *entries = (struct entry *)dir->entries;
    for (size_t at = hash & (table - 1);; at = (at + 1) & (table - 1))
        if (entries[at].number == 0 || (entries[at].len == len && memcmp(entries[at].name, name, len) == 0))
            return &entries[at];
}

static void name_of(uint32_t file, unsigned char *name) {
    for (int letter = 0; letter < 4; letter++)
        name[letter] = (unsigned char)('A' + (file >> (15 - 5 * letter) & 31));
}

static void add(uint32_t type, uint64_t dir) {
    struct file *f = &files[count++];
    *f = (struct file){.number = count, .type = type, .mode = 0755, .nlink = 1, .uid = OWNER, .gid = OWNER, .parent = dir};
    if (type == 2)
        f->entries = some(table, sizeof *f->entries);
    else {
        char *name = some(4, 1);
        f->bytes = memcpy(some(5, 1), "hello", 5);
        f->size = 5;
        name_of((uint32_t)(count - dir - 1), (unsigned char *)name);
        *entry_of(&files[dir - 1], (unsigned char *)name, 4) = (struct entry){name, 4, count};
    }
}

static void grow(uint32_t some_dirs, uint32_t some_files) {
    dirs = some_dirs, each = some_files;
    for (table = 1; table < 2 * each; table *= 2)
        ;
    files = some(dirs * (each + 1) + 1, sizeof *files);
    count = 0;
    add(2, 1);
    for (uint32_t dir = 0; dir < dirs; dir++) {
        uint64_t number = count + 1;
        add(2, 1);
        for (uint32_t file = 0; file < each; file++)
            add(1, number);
    }
}

/* ---- calls */

static struct file *file_of(struct bytes handle) {
    if (handle.len != HANDLE || memcmp(handle.at, "NFS3", 4) != 0 || memcmp(handle.at + 4, s.key, 8) != 0)
        return NULL;
    uint64_t number = hyper(handle.at + 16);
    return number == 0 || number > count || files[number - 1].number != number ? NULL : &files[number - 1];
}

static unsigned char *do_lookup(const struct ids *ids, const struct file *dir, struct bytes name, unsigned char *at) {
    if (dir->type != 2 || !(rights(ids, dir) & 1) || name.len == 0 || name.len > 255 || memchr(name.at, '/', name.len) || memchr(name.at, 0, name.len))
        return shown(put(at, 13), dir);
    const struct entry *e = entry_of(dir, name.at, name.len);
    if (e->number == 0)
        return shown(put(at, 2), dir);
    at = put(put(at, 0), HANDLE);
    memcpy(at, "NFS3", 4);
    memcpy(at + 4, s.key, 8);
    at = put64(put(at + 12, 0), e->number);
    return shown(shown(at, &files[e->number - 1]), dir);
}

static unsigned char *do_read(const struct ids *ids, const struct file *f, uint32_t asked, unsigned char *at) {
    if (f->type != 1 || !(rights(ids, f) & 4))
        return shown(put(at, 13), f);
    uint32_t n = asked < MAX_READ ? asked : MAX_READ;
    n = f->size < n ? (uint32_t)f->size : n;
    at = put(put(put(shown(put(at, 0), f), n), f->size <= n), n);
    memcpy(at, f->bytes, n);
    memset(at + n, 0, -n & 3);
    return at + n + (-n & 3);
}

static unsigned char *do_setattr(const struct ids *ids, struct file *f, uint32_t mode, unsigned char *at) {
    at = put(at, ids->uid != 0 && ids->uid != f->uid);
    at = put64(put(at, 1), f->size);
    at = put(put(put(put(at, f->mtime.seconds), f->mtime.nanos), f->ctime.seconds), f->ctime.nanos);
    if (ids->uid == 0 || ids->uid == f->uid) {
        f->mode = mode & 07777;
        f->ctime = (struct moment){100, 0};
    }
    return shown(at, f);
}

/* takes an entry out of the table, and closes the gap */
static void drop(const struct file *dir, struct entry *gap) {
    struct entry *entries = (struct entry *)dir->entries;
    free((void *)gap->name);
    for (size_t hole = (size_t)(gap - entries), at = hole;;) {
        at = (at + 1) & (table - 1);
        if (entries[at].number == 0) {
            entries[hole].number = 0;
            return;
        }
        uint32_t hash = 2166136261u;
        for (size_t i = 0; i < entries[at].len; i++)
            hash = (hash ^ (unsigned char)entries[at].name[i]) * 16777619u;
        if (((at - hash) & (table - 1)) >= ((at - hole) & (table - 1)))
            entries[hole] = entries[at], hole = at;
    }
}

/* a name of a directory becomes another one there, which has no entry */
static unsigned char *do_rename(const struct ids *ids, struct file *dir, struct bytes from, struct bytes to, unsigned char *at) {
    struct entry *old = dir->type == 2 && (rights(ids, dir) & 3) == 3 ? entry_of(dir, from.at, from.len) : NULL;
    struct moment now = {100, 0};
    if (!old || old->number == 0)
        return put(at, old ? 2 : 13);
    uint64_t number = old->number;
    unsigned char *end = put(at, 0);
    for (int side = 0; side < 2; side++) {
        end = put64(put(end, 1), 4096);
        end = put(put(put(put(end, dir->mtime.seconds), dir->mtime.nanos), dir->ctime.seconds), dir->ctime.nanos);
        end = shown(end, dir);
    }
    char *name = memcpy(some(to.len, 1), to.at, to.len);
    drop(dir, old);
    *entry_of(dir, to.at, to.len) = (struct entry){name, to.len, number};
    files[number - 1].ctime = dir->mtime = dir->ctime = now;
    return end;
}

static unsigned char *do_access(const struct ids *ids, const struct file *f, uint32_t asked, unsigned char *at) {
    uint32_t r = rights(ids, f);
    return put(shown(put(at, 0), f), ((r & 4 ? 1 : 0) | (r & 2 ? 12 : 0) | (r & 1 ? 32 : 0)) & asked);
}

/* what stands after a handle: a name, or words; of the words of a SETATTR the mode alone counts */
struct rest {
    struct bytes name, dir, new_name;
    uint32_t words[9];
};

static int read_rest(struct input *in, uint32_t proc, struct rest *rest) {
    static const unsigned counts[] = {[1] = 0, [2] = 8, [4] = 1, [6] = 3};
    if (proc == 3)
        return opaque(in, UINT32_MAX, &rest->name);
    if (proc == 14)
        return opaque(in, UINT32_MAX, &rest->name) && opaque(in, 64, &rest->dir) && opaque(in, UINT32_MAX, &rest->new_name);
    for (unsigned i = 0; i < counts[proc]; i++)
        if (!get(in, &rest->words[i]))
            return 0;
    return 1;
}

static unsigned char *perform(uint32_t proc, struct ids *ids, struct bytes handle, const struct rest *rest, unsigned char *at) {
    struct file *f = file_of(handle);
    const struct export *e = f ? grant(&s, f->volume, ADDRESS) : NULL;
    if (!e)
        return put(at, f ? 13 : 70);
    squash(e, ids);
    switch (proc) {
    case 1:
        return attributes(put(at, 0), f);
    case 2:
        return do_setattr(ids, f, rest->words[1], at);
    case 3:
        return do_lookup(ids, f, rest->name, at);
    case 14:
        return file_of(rest->dir) == f ? do_rename(ids, f, rest->name, rest->new_name, at) : put(at, 70);
    case 4:
        return do_access(ids, f, rest->words[0], at);
    default:
        return do_read(ids, f, rest->words[2], at);
    }
}

__attribute__((noinline, noclone)) static size_t answer(const unsigned char *record, size_t len, unsigned char *reply) {
    struct input in = {record, len};
    uint32_t xid, kind, rpcvers, prog, vers, proc, flavor, other;
    struct bytes body, verifier, handle;
    struct rest rest;
    struct ids ids;
    rest.name = (struct bytes){NULL, 0};
    if (!get(&in, &xid) || !get(&in, &kind) || kind != 0 || !get(&in, &rpcvers) || rpcvers != 2 || !get(&in, &prog) || prog != 100003 ||
        !get(&in, &vers) || vers != 3 || !get(&in, &proc) || !get(&in, &flavor) || flavor != 1 || !opaque(&in, 400, &body) || !read_ids(body, &ids) ||
        !get(&in, &other) || !opaque(&in, 400, &verifier) || (proc > 4 && proc != 6 && proc != 14) || proc == 0 || !opaque(&in, 64, &handle) || !read_rest(&in, proc, &rest))
        return 0;
    unsigned char *at = perform(proc, &ids, handle, &rest, put(put64(put(put(reply + 4, xid), 1), 0), 0) + 4);
    put(reply, 0x80000000u | (uint32_t)(at - reply - 4));
    return (size_t)(at - reply - 4);
}

/* ---- what is measured */

static struct place *wander(int of_dir) {
    uint64_t all = (uint64_t)dirs * each;
    struct place *places = some(all, sizeof *places);
    for (uint64_t step = 0; step < all; step++) {
        uint64_t index = step * STRIDE % all, file = index % each, dir = index / each * (each + 1) + 2;
        memcpy(places[step].handle, "NFS3", 4);
        memcpy(places[step].handle + 4, s.key, 8);
        put64(places[step].handle + 16, of_dir ? dir : dir + 1 + file);
        name_of((uint32_t)file, places[step].name);
    }
    return places;
}

static void measure(const char *name, uint32_t proc, const unsigned char *rest, size_t len) {
    static unsigned char reply[1000], record[300] = {
        0, 0, 0, 42, 0, 0, 0, 0, 0, 0, 0, 2, 0, 1, 0x86, 0xa3, 0, 0, 0, 3, 0, 0, 0, 0, 0, 0, 0, 1, 0, 0, 0, 20,
        0, 0, 0, 0, 0, 0, 0, 0, 0, 0, 0, OWNER, 0, 0, 0, OWNER, 0, 0, 0, 0, 0, 0, 0, 0, 0, 0, 0, 0, 0, 0, 0, HANDLE};
    struct place *places = wander(proc == 3 || proc == 14);
    uint64_t least = UINT64_MAX;
    size_t bytes = 0;
    uint32_t xid = 0, all = dirs * each, passes = CALLS / all;
    record[23] = (unsigned char)proc;
    memcpy(record + 88, rest, len);
    for (int run = 0; run < RUNS; run++) {
        uint64_t start = now();
        for (uint32_t pass = 0; pass < passes; pass++)
            for (uint32_t i = 0; i < all; i++) {
                put(record, xid++);
                memcpy(record + 64, places[i].handle, HANDLE);
                if (proc == 3 || proc == 14)
                    memcpy(record + 92, places[i].name, 4);
                if (proc == 14) {
                    /* to the name y, and back */
                    memcpy(record + 100, places[i].handle, HANDLE);
                    memcpy(record + 124, "\0\0\0\1y\0\0\0", 8);
                    bytes += answer(record, 132, reply);
                    memcpy(record + 88, "\0\0\0\1y\0\0\0", 8);
                    memcpy(record + 124, "\0\0\0\4", 4);
                    memcpy(record + 128, places[i].name, 4);
                    put(record, xid++);
                    bytes += answer(record, 132, reply);
                    memcpy(record + 88, rest, len);
                    continue;
                }
                bytes += answer(record, 88 + len, reply);
            }
        uint64_t time = (now() - start) * 10 / ((uint64_t)passes * all);
        least = time < least ? time : least;
    }
    printf("%s-%zu %llu.%llu %zu\n", name, dirs == 1 ? each : count, (unsigned long long)(least / 10), (unsigned long long)(least % 10), bytes / xid);
    free(places);
}

/* the files of a directory have no bytes from now on */
static void empty(uint32_t names) {
    for (struct file *f = &files[2]; f < &files[2 + names]; f++) {
        free((void *)f->bytes);
        f->bytes = NULL;
        f->size = 0;
    }
}

/* The files of a directory are removed in the order of its pages: a page is written, and then each file of it is looked for by
 * its name and taken away. Filling the directory isn't counted. */
static void measure_removal(uint32_t names) {
    enum { PAGE = 2000 };
    static unsigned char page[PAGE * 28];
    uint64_t least = UINT64_MAX;
    grow(1, names);
    empty(names);
    struct file *dir = &files[1];
    for (int run = 0; run < RUNS; run++) {
        uint64_t time = 0;
        for (uint32_t pass = 0; pass < 100000 / names; pass++) {
            uint64_t start = now();
            for (uint32_t from = 0; from < names; from += PAGE) {
                uint32_t until = names - from < PAGE ? names : from + PAGE;
                unsigned char *at = page, wanted[4];
                for (uint32_t i = from; i < until; i++) {
                    name_of(i, wanted);
                    at = put(put64(put(at, 1), files[2 + i].number), 4);
                    memcpy(at, wanted, 4);
                    at = put64(at + 4, i + 3);
                }
                for (uint32_t i = from; i < until; i++) {
                    name_of(i, wanted);
                    struct entry *e = entry_of(dir, wanted, 4);
                    struct file *f = &files[e->number - 1];
                    drop(dir, e);
                    f->number = 0;
                    dir->mtime = dir->ctime = (struct moment){100, 0};
                }
            }
            time += now() - start;
            count = 2;
            for (uint32_t file = 0; file < names; file++)
                add(1, 2);
            empty(names);
        }
        time = time * 10 / (100000 / names * names);
        least = time < least ? time : least;
    }
    printf("removed-%u %llu.%llu\n", names, (unsigned long long)(least / 10), (unsigned long long)(least % 10));
}

int main(void) {
    static const unsigned char name[8] = {0, 0, 0, 4}, named[12] = {[3] = 4, [11] = HANDLE}, bits[4] = {0, 0, 0, 0x3f}, range[12] = {[10] = 16}, mode[32] = {[3] = 1, [6] = 1, [7] = 0xa4};
    static const struct { uint32_t dirs, each; } sizes[] = {{1, 10}, {1, 100000}, {1, 1000}, {999, 1000}};
    for (int i = 0; i < 4; i++) {
        grow(sizes[i].dirs, sizes[i].each);
        measure("lookup-x", 3, name, 8);
        if (i < 2) {
            measure("rename", 14, named, 12);
            continue;
        }
        measure("getattr", 1, name, 0);
        measure("read-4096", 6, range, 12);
        measure("access", 4, bits, 4);
        measure("setattr", 2, mode, 32);
    }
    measure_removal(100);
    measure_removal(100000);
    return 0;
}
