/* What the baselines of calls share: files in a sorted array, exports, callers, and attributes as they are written. */
#include "items.h"
#include <string.h>

enum { MAX_GIDS = 16, HANDLE = 24, OWNER = 9 };

/* ---- items of XDR */

struct bytes {
    const unsigned char *at;
    uint32_t len;
};

static int opaque(struct input *in, uint32_t max, struct bytes *b) {
    uint32_t n;
    if (!get(in, &n) || n > max)
        return 0;
    size_t all = ((size_t)n + 3) & ~(size_t)3;
    if (in->left < all)
        return 0;
    b->at = in->at;
    b->len = n;
    in->at += all;
    in->left -= all;
    return 1;
}

static unsigned char *put64(unsigned char *at, uint64_t n) {
    return put(put(at, (uint32_t)(n >> 32)), (uint32_t)n);
}

static uint64_t hyper(const unsigned char *at) {
    uint64_t n = 0;
    for (int i = 0; i < 8; i++)
        n = n << 8 | at[i];
    return n;
}

/* ---- files, exports and callers */

struct moment {
    uint32_t seconds, nanos;
};

struct entry {
    const char *name;
    size_t len;
    uint64_t number, cookie;
    uint32_t slot, hash;
};

struct names;

struct file {
    uint64_t number;
    uint32_t type, mode, nlink, uid, gid;
    uint64_t size;
    uint32_t volume;
    struct moment atime, mtime, ctime;
    uint64_t parent;
    const struct entry *entries;
    size_t count;
    const unsigned char *bytes;
    struct names *names; /* the index of a directory's names, where it is in use (directory.h) */
    uint64_t made;       /* how many names it has had */
};

enum squash { NOBODY, ROOT, ALL };

struct export {
    uint32_t volume, address, bits;
    enum squash squash;
    uint32_t anonuid, anongid;
};

struct ids {
    uint32_t uid, gid, count, gids[MAX_GIDS];
};

struct server {
    unsigned char key[8];
    uint64_t next;
    const struct file *files;
    size_t count;
    const struct export *exports;
    size_t patterns;
    int tagged; /* whether the tag in a handle is the slot of its file, and not 0 */
};

/* The file of a number, which may stand in this slot. */
static const struct file *find_at(const struct server *s, uint64_t number, size_t slot) {
    if (slot < s->count && s->files[slot].number == number)
        return &s->files[slot];
    size_t low = 0, high = s->count;
    while (low < high) {
        size_t middle = (low + high) / 2;
        if (s->files[middle].number == number)
            return &s->files[middle];
        if (s->files[middle].number < number)
            low = middle + 1;
        else
            high = middle;
    }
    return NULL;
}

static const struct file *find(const struct server *s, uint64_t number) { return find_at(s, number, SIZE_MAX); }

static uint32_t named(const struct server *s, struct bytes handle, const struct file **file) {
    if (handle.len != HANDLE || memcmp(handle.at, "NFS3", 4) != 0)
        return 10001;
    if (memcmp(handle.at + 4, s->key, 8) != 0)
        return 70;
    uint64_t number = hyper(handle.at + 16);
    if (number == 0 || number >= s->next)
        return 10001;
    uint32_t tag = (uint32_t)hyper(handle.at + 8);
    *file = s->tagged ? find_at(s, number, tag) : find(s, number);
    return *file && tag == (s->tagged ? (uint32_t)(*file - s->files) : 0) ? 0 : 70;
}

static const struct export *grant(const struct server *s, uint32_t volume, uint32_t address) {
    for (size_t i = 0; i < s->patterns; i++) {
        const struct export *e = &s->exports[i];
        uint32_t others = 32 - e->bits;
        if (e->volume == volume && (uint64_t)address >> others == (uint64_t)e->address >> others)
            return e;
    }
    return NULL;
}

static int read_ids(struct bytes body, struct ids *ids) {
    struct input in = {body.at, body.len};
    struct bytes machine;
    uint32_t stamp;
    if (!get(&in, &stamp) || !opaque(&in, 255, &machine) || !get(&in, &ids->uid) || !get(&in, &ids->gid) ||
        !get(&in, &ids->count) || ids->count > MAX_GIDS)
        return 0;
    for (uint32_t i = 0; i < ids->count; i++)
        if (!get(&in, &ids->gids[i]))
            return 0;
    return 1;
}

static void squash(const struct export *e, struct ids *ids) {
    if (e->squash == NOBODY)
        return;
    if (e->squash == ALL) {
        *ids = (struct ids){e->anonuid, e->anongid, 0, {0}};
        return;
    }
    if (ids->uid == 0)
        ids->uid = e->anonuid;
    if (ids->gid == 0)
        ids->gid = e->anongid;
    for (uint32_t i = 0; i < ids->count; i++)
        if (ids->gids[i] == 0)
            ids->gids[i] = e->anongid;
}

/* the three bits of the caller's class */
static uint32_t rights(const struct ids *ids, const struct file *file) {
    if (ids->uid == 0)
        return 7;
    if (ids->uid == file->uid)
        return file->mode >> 6 & 7;
    int member = ids->gid == file->gid;
    for (uint32_t i = 0; i < ids->count; i++)
        member |= ids->gids[i] == file->gid;
    return member ? file->mode >> 3 & 7 : file->mode & 7;
}

/* ---- results */

static unsigned char *attributes(unsigned char *at, const struct file *file) {
    at = put(at, file->type);
    at = put(at, file->mode);
    at = put(at, file->nlink);
    at = put(at, file->uid);
    at = put(at, file->gid);
    at = put64(at, file->size);
    at = put64(at, file->size);
    at = put64(at, 0);
    at = put64(at, file->volume + 1);
    at = put64(at, file->number);
    at = put(at, file->atime.seconds);
    at = put(at, file->atime.nanos);
    at = put(at, file->mtime.seconds);
    at = put(at, file->mtime.nanos);
    at = put(at, file->ctime.seconds);
    return put(at, file->ctime.nanos);
}

static unsigned char *shown(unsigned char *at, const struct file *file) {
    return file ? attributes(put(at, 1), file) : put(at, 0);
}
