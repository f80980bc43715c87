/* The baselines of the answers of procedures: written from structures, plainly, field by field, into a buffer
 * that has room.
 */
#include "items.h"
#include <stdio.h>
#include <string.h>

struct moment {
    uint32_t seconds, nanos;
};

struct attributes {
    uint32_t type, mode, nlink, uid, gid;
    uint64_t size, used;
    uint32_t major, minor;
    uint64_t fsid, fileid;
    struct moment atime, mtime, ctime;
};

struct before {
    uint64_t size;
    struct moment mtime, ctime;
};

struct change {
    int has_before, has_after;
    struct before before;
    struct attributes after;
};

struct bytes {
    const unsigned char *at;
    uint32_t len;
};

struct shown {
    int is_there;
    struct attributes attributes;
};

struct space {
    uint64_t total, free, available;
};

struct answer {
    uint32_t procedure, status;
    union {
        struct attributes attributes;
        struct { struct bytes file; struct shown object, dir; } found;
        struct { struct shown file; uint32_t rights; } rights;
        struct { struct shown file; int eof; struct bytes content; } data;
        struct { struct change file; uint32_t count, committed; uint64_t verifier; } written;
        struct { int has_file; struct bytes file; struct shown object; struct change dir; } made;
        struct change change;
        struct { struct shown file; struct space bytes, files; uint32_t invarsec; } room;
        struct bytes volume;
    };
};

static unsigned char *put64(unsigned char *at, uint64_t n) { return put(put(at, (uint32_t)(n >> 32)), (uint32_t)n); }

static unsigned char *put_moment(unsigned char *at, struct moment m) { return put(put(at, m.seconds), m.nanos); }

static unsigned char *put_attributes(unsigned char *at, const struct attributes *a) {
    at = put(put(put(put(put(at, a->type), a->mode), a->nlink), a->uid), a->gid);
    at = put(put(put64(put64(at, a->size), a->used), a->major), a->minor);
    at = put64(put64(at, a->fsid), a->fileid);
    return put_moment(put_moment(put_moment(at, a->atime), a->mtime), a->ctime);
}

static unsigned char *put_shown(unsigned char *at, const struct shown *s) {
    return s->is_there ? put_attributes(put(at, 1), &s->attributes) : put(at, 0);
}

static unsigned char *put_change(unsigned char *at, const struct change *c) {
    at = put(at, c->has_before != 0);
    if (c->has_before)
        at = put_moment(put_moment(put64(at, c->before.size), c->before.mtime), c->before.ctime);
    at = put(at, c->has_after != 0);
    return c->has_after ? put_attributes(at, &c->after) : at;
}

static unsigned char *put_opaque(unsigned char *at, struct bytes b) {
    static const unsigned char zeros[3];
    at = put(at, b.len);
    memcpy(at, b.at, b.len);
    memcpy(at + b.len, zeros, -b.len & 3);
    return at + b.len + (-b.len & 3);
}

static unsigned char *put_space(unsigned char *at, const struct space *s) { return put64(put64(put64(at, s->total), s->free), s->available); }

/* the results that are measured, where they are OK */
__attribute__((noinline, noclone)) static size_t write_nfs(unsigned char *out, const struct answer *a) {
    unsigned char *at = put(out, a->status);
    switch (a->procedure) {
    case 1:
        at = put_attributes(at, &a->attributes);
        break;
    case 3:
        at = put_shown(put_shown(put_opaque(at, a->found.file), &a->found.object), &a->found.dir);
        break;
    case 4:
        at = put(put_shown(at, &a->rights.file), a->rights.rights);
        break;
    case 6:
        at = put_opaque(put(put(put_shown(at, &a->data.file), a->data.content.len), a->data.eof != 0), a->data.content);
        break;
    case 7:
        at = put64(put(put(put_change(at, &a->written.file), a->written.count), a->written.committed), a->written.verifier);
        break;
    case 8:
        at = put(at, a->made.has_file != 0);
        if (a->made.has_file)
            at = put_opaque(at, a->made.file);
        at = put_change(put_shown(at, &a->made.object), &a->made.dir);
        break;
    case 12:
        at = put_change(at, &a->change);
        break;
    case 18:
        at = put(put_space(put_space(put_shown(at, &a->room.file), &a->room.bytes), &a->room.files), a->room.invarsec);
        break;
    }
    return at - out;
}

__attribute__((noinline, noclone)) static size_t write_mount(unsigned char *out, const struct answer *a) {
    return a->procedure == 1 ? put(put(put_opaque(put(out, a->status), a->volume), 1), 1) - out : 0;
}

/* the least of many short runs, so that what else runs disturbs few */
static void measure(const char *name, const struct answer *a, size_t want) {
    static unsigned char out[70000];
    int mount = strcmp(name, "mnt") == 0;
    uint64_t least = UINT64_MAX;
    volatile uint64_t bytes = 0;
    for (int run = 0; run < 100; run++) {
        uint64_t start = now();
        uint64_t count = 0;
        for (uint32_t round = 0; round < 100000; round++)
            count += mount ? write_mount(out, a) : write_nfs(out, a);
        uint64_t time = (now() - start) / 10000;
        least = time < least ? time : least;
        bytes += count;
    }
    printf("answer-%s %llu.%llu\n", bytes == want * 10000000 ? name : "unlike", (unsigned long long)(least / 10), (unsigned long long)(least % 10));
}

int main(void) {
    static unsigned char handle[24], content[4096];
    const struct moment time = {100, 5};
    const struct shown file = {1, {1, 0644, 1, 9, 9, 4096, 4096, 0, 0, 1, 9, time, time, time}};
    const struct change change = {1, 1, {4096, time, time}, file.attributes};
    struct answer a = {1, 0, {.attributes = file.attributes}};
    memset(handle, 7, sizeof handle);
    memset(content, 7, sizeof content);
    measure("getattr", &a, 88);
    a = (struct answer){3, 0, {.found = {{handle, 24}, file, file}}};
    measure("lookup", &a, 208);
    a = (struct answer){4, 0, {.rights = {file, 0x1f}}};
    measure("access", &a, 96);
    a = (struct answer){6, 0, {.data = {file, 1, {content, 4096}}}};
    measure("read", &a, 4200);
    a = (struct answer){18, 0, {.room = {file, {1000000, 500000, 500000}, {1000, 500, 500}, 0}}};
    measure("fsstat", &a, 144);
    a = (struct answer){7, 0, {.written = {change, 4096, 2, 7}}};
    measure("write", &a, 136);
    a = (struct answer){8, 0, {.made = {1, {handle, 24}, file, change}}};
    measure("create", &a, 240);
    a = (struct answer){12, 0, {.change = change}};
    measure("remove", &a, 120);
    a = (struct answer){1, 0, {.volume = {handle, 24}}};
    measure("mnt", &a, 40);
    return 0;
}
