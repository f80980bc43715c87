/* Answers a call, in plain C, and caches the replies to calls that change files. */
#include "changes.h"
#include "reads.h"

/* ---- cached replies: by address and record, hashed by its first 64 bytes, in the order of their last use */

enum { PLACES = 128, BUCKETS = 256, CHANGES = 1 << 2 | 1 << 7 | 1 << 8 | 1 << 9 | 1 << 12 | 1 << 13 | 1 << 14 };

struct place {
    uint32_t address, hash;
    size_t len, reply_len;
    unsigned char *record, reply[512];
    struct place *newer, *older, *next;
};

static struct place places[PLACES], *newest, *oldest, *buckets[BUCKETS];
static int keeps;

static uint32_t hash_of(uint32_t address, const unsigned char *record, size_t len) {
    uint32_t hash = (2166136261u ^ address) * 16777619u ^ (uint32_t)len;
    for (size_t i = 0; i < len && i < 64; i++)
        hash = (hash ^ record[i]) * 16777619u;
    return hash;
}

static void unlink_place(struct place *p) {
    if (p->newer) p->newer->older = p->older;
    else newest = p->older;
    if (p->older) p->older->newer = p->newer;
    else oldest = p->newer;
}

static void to_front(struct place *p) {
    p->newer = NULL, p->older = newest;
    if (newest) newest->newer = p;
    else oldest = p;
    newest = p;
}

static struct place *find_place(uint32_t address, uint32_t hash, const unsigned char *record, size_t len) {
    for (struct place *p = buckets[hash % BUCKETS]; p; p = p->next)
        if (p->hash == hash && p->address == address && p->len == len && memcmp(p->record, record, len) == 0) {
            unlink_place(p), to_front(p);
            return p;
        }
    return NULL;
}

static struct place *take_place(uint32_t address, uint32_t hash, const unsigned char *record, size_t len) {
    static size_t used;
    struct place *p = used < PLACES ? &places[used++] : oldest;
    if (p->record) {
        struct place **at = &buckets[p->hash % BUCKETS];
        while (*at != p) at = &(*at)->next;
        *at = p->next;
        unlink_place(p);
        free(p->record);
    }
    p->address = address, p->hash = hash, p->len = len, p->record = malloc(len);
    memcpy(p->record, record, len);
    p->next = buckets[hash % BUCKETS], buckets[hash % BUCKETS] = p;
    to_front(p);
    return p;
}

/* ---- a call */

__attribute__((noinline, noclone)) static size_t answer(uint32_t address, const unsigned char *record, size_t len, unsigned char *reply, char *line) {
    struct call c = {.address = address, .in = {record, len}};
    uint32_t kind, rpcvers, prog, vers, flavor, other;
    struct bytes body, verifier;
    if (!get(&c.in, &c.xid) || !get(&c.in, &kind) || kind != 0 || !get(&c.in, &rpcvers) || !get(&c.in, &prog) || !get(&c.in, &vers) || !get(&c.in, &c.proc) ||
        !get(&c.in, &flavor) || !opaque(&c.in, 400, &body) || !get(&c.in, &other) || !opaque(&c.in, 400, &verifier))
        return 0;
    if (rpcvers != 2 || prog != 100003 || vers != 3 || (c.proc != 0 && (flavor != 1 || !read_ids(body, &c.ids))))
        return 0;
    c.rule_uid = UINT32_MAX;
    unsigned char *at = put(put(put64(put(put(reply + 4, c.xid), 1), 0), 0), 0);
    struct place *place = NULL;
    if (keeps && (1u << c.proc & CHANGES)) {
        uint32_t hash = hash_of(address, record, len);
        if ((place = find_place(address, hash, record, len))) {
            memcpy(reply, place->reply, place->reply_len);
            return place->reply_len - 4;
        }
        place = take_place(address, hash, record, len);
    }
    switch (c.proc) {
    case 0: break;
    case 1: at = do_getattr(&c, at); break;
    case 2: at = do_setattr(&c, at); break;
    case 3: at = do_lookup(&c, at); break;
    case 4: at = do_access(&c, at); break;
    case 6: at = do_read(&c, at); break;
    case 7: at = do_write(&c, at); break;
    case 8: case 9: at = do_make(&c, at); break;
    case 12: case 13: at = do_remove(&c, at); break;
    case 14: at = do_rename(&c, at); break;
    case 16: case 17: at = do_list(&c, at); break;
    default: at = NULL;
    }
    if (!at)
        return 0;
    if (c.rule)
        snprintf(line, 200, "deny addr=%u.%u.%u.%u xid=%u prog=%u proc=%u uid=- rule=%s status=%u\n", address >> 24, address >> 16 & 255, address >> 8 & 255, address & 255, c.xid, prog, c.proc, c.rule, 13u);
    put(reply, 0x80000000u | (uint32_t)(at - reply - 4));
    if (place) {
        place->reply_len = (size_t)(at - reply);
        memcpy(place->reply, reply, place->reply_len);
    }
    return (size_t)(at - reply - 4);
}

/* The file of this index, of those that a server begins with: a directory without names, or a file of zeros. */
static void file(size_t i, uint32_t type, uint32_t mode, uint32_t uid, uint64_t size, uint32_t volume) {
    files[i] = (struct file){.number = i + 1, .type = type, .mode = mode, .nlink = type, .uid = uid, .gid = uid, .size = type == 2 ? 4096 : size, .volume = volume, .parent = 1,
        .entries = type == 2 ? some(ROWS, sizeof *files->entries) : NULL, .bytes = type == 1 ? some(1, size + 1) : NULL};
}
