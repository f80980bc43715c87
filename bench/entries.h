/* Entries of a directory, as any server has to write them: plainly, from an array. */
#include "items.h"
#include <string.h>

/* The bytes of a page that are no entry's: the directory's attributes, the verifier and the end. */
enum { PAGE_HEAD = 104, FILE_BYTES = 4 + 84 + 4 + 28 };

struct attributes {
    uint32_t type, mode, nlink, uid, gid;
    uint64_t size, used, rdev, fsid, fileid;
    uint32_t times[6];
};

struct entry {
    uint64_t number, cookie;
    uint32_t len;
    const char *name;
    const struct attributes *attributes;
};

static unsigned char *put64(unsigned char *at, uint64_t n) { return put(put(at, (uint32_t)(n >> 32)), (uint32_t)n); }

static unsigned char *put_bytes(unsigned char *at, const void *bytes, uint32_t len) {
    static const unsigned char zeros[3];
    at = put(at, len);
    memcpy(at, bytes, len);
    memcpy(at + len, zeros, -len & 3);
    return at + len + (-len & 3);
}

static unsigned char *put_attributes(unsigned char *at, const struct attributes *a) {
    at = put(put(put(put(put(at, a->type), a->mode), a->nlink), a->uid), a->gid);
    at = put64(put64(put64(put64(put64(at, a->size), a->used), a->rdev), a->fsid), a->fileid);
    for (int i = 0; i < 6; i++)
        at = put(at, a->times[i]);
    return at;
}

static unsigned char *put_shown(unsigned char *at, const struct entry *e) {
    unsigned char handle[24] = "NFS3";
    put64(put(handle + 12, 0), e->number);
    return put_bytes(put(put_attributes(put(at, 1), e->attributes), 1), handle, sizeof handle);
}

/* Writes the entries of a page of `room` bytes, as many as fit, and its end, and returns how many bytes these have. With
 * FILE_BYTES beside it each entry has its file's attributes and handle. */
__attribute__((noinline, noclone)) static size_t page(unsigned char *out, const struct entry *entries, size_t count, size_t room, size_t beside) {
    unsigned char *at = out;
    size_t i = 0;
    room -= PAGE_HEAD;
    for (; i < count; i++) {
        const struct entry *e = &entries[i];
        size_t bytes = 24 + e->len + (-e->len & 3);
        if (room < bytes + beside)
            break;
        at = put64(put_bytes(put64(put(at, 1), e->number), e->name, e->len), e->cookie);
        if (beside)
            at = put_shown(at, e);
        room -= bytes + beside;
    }
    return (size_t)(put(put(at, 0), i == count) - out);
}
