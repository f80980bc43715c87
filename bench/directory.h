/* The names of a directory, in the order of their cookies. A directory whose index is in use finds a name by its hash, as one with
 * many names has to; the others look through their rows. An entry that leaves an indexed directory leaves its row dead, until more
 * than half of them are. */
#include "files.h"
#include <stdlib.h>

/* `.` and `..` have the cookies 1 and 2, and the names those after. */
enum { ROWS = 64, DOTS = 2 };

struct names {
    uint32_t *rows; /* the row of a name, and one more; 0 where there is none */
    size_t mask, live;
};

static void *some(size_t number, size_t bytes) {
    void *at = calloc(number, bytes);
    if (!at)
        exit(1);
    return at;
}

static struct file *changed(const struct file *f) { return (struct file *)f; }

static struct entry *entries_of(const struct file *dir) { return (struct entry *)dir->entries; }

static uint32_t name_hash(const unsigned char *name, size_t len) {
    uint64_t hash = len;
    for (; len > 0; len -= len < 8 ? len : 8, name += 8) {
        uint64_t word = 0;
        memcpy(&word, name, len < 8 ? len : 8);
        hash = (hash ^ word) * 0x9e3779b97f4a7c15u;
        hash ^= hash >> 29;
    }
    return (uint32_t)hash;
}

static int has_name(const struct entry *e, struct bytes name) { return e->len == name.len && memcmp(e->name, name.at, name.len) == 0; }

/* Where a name stands in the index, or the vacant place where it would. */
static uint32_t *indexed(const struct file *dir, struct bytes name, uint32_t hash) {
    const struct names *n = dir->names;
    for (size_t at = hash & n->mask;; at = (at + 1) & n->mask) {
        const struct entry *e = &dir->entries[n->rows[at] - 1];
        if (n->rows[at] == 0 || (e->hash == hash && has_name(e, name)))
            return &n->rows[at];
    }
}

static struct entry *entry_of(const struct file *dir, struct bytes name) {
    if (dir->names) {
        uint32_t row = *indexed(dir, name, name_hash(name.at, name.len));
        return row == 0 ? NULL : &entries_of(dir)[row - 1];
    }
    for (size_t i = 0; i < dir->count; i++)
        if (has_name(&dir->entries[i], name))
            return &entries_of(dir)[i];
    return NULL;
}

/* An index of the rows that are live, which close up. At most half of its places are taken. */
static void index_names(const struct file *dir) {
    struct names *n = dir->names;
    struct entry *rows = entries_of(dir);
    size_t live = 0;
    free(n->rows);
    for (n->mask = 2 * ROWS; n->mask < 4 * n->live; n->mask *= 2)
        ;
    n->rows = some(n->mask--, sizeof *n->rows);
    for (size_t row = 0; row < dir->count; row++)
        if (rows[row].number != 0) {
            rows[live] = rows[row];
            size_t at = rows[live].hash & n->mask;
            while (n->rows[at])
                at = (at + 1) & n->mask;
            n->rows[at] = (uint32_t)++live;
        }
    changed(dir)->count = live;
}

/* Takes a place out of the index, and closes the gap. */
static void close_gap(const struct file *dir, size_t hole) {
    struct names *n = dir->names;
    for (size_t at = hole;;) {
        at = (at + 1) & n->mask;
        if (n->rows[at] == 0)
            break;
        if (((at - dir->entries[n->rows[at] - 1].hash) & n->mask) >= ((at - hole) & n->mask))
            n->rows[hole] = n->rows[at], hole = at;
    }
    n->rows[hole] = 0;
}

/* One name more, which goes last. */
static void add_name(const struct file *dir, struct bytes name, const struct file *f, size_t slot) {
    struct file *d = changed(dir);
    if (d->count >= ROWS && (d->count & (d->count - 1)) == 0 && !(d->entries = realloc(entries_of(d), 2 * d->count * sizeof *d->entries)))
        exit(1);
    char *own = some(name.len, 1);
    memcpy(own, name.at, name.len);
    entries_of(d)[d->count++] = (struct entry){own, name.len, f->number, DOTS + ++d->made, (uint32_t)slot, name_hash(name.at, name.len)};
    if (d->names && 2 * ++d->names->live > d->names->mask)
        index_names(d);
    else if (d->names)
        *indexed(d, name, entries_of(d)[d->count - 1].hash) = (uint32_t)d->count;
}

static void drop_name(const struct file *dir, struct entry *e) {
    struct file *d = changed(dir);
    size_t row = (size_t)(e - d->entries);
    if (!d->names) {
        free((void *)e->name);
        memmove(e, e + 1, (--d->count - row) * sizeof *e);
        return;
    }
    close_gap(d, (size_t)(indexed(d, (struct bytes){(const unsigned char *)e->name, (uint32_t)e->len}, e->hash) - d->names->rows));
    free((void *)e->name);
    e->number = 0;
    if (d->count > 2 * --d->names->live + ROWS / 2)
        index_names(d);
}

/* The first row whose cookie is above this one. */
static size_t row_after(const struct file *dir, uint64_t cookie) {
    size_t low = 0, high = dir->count;
    while (low < high) {
        size_t middle = (low + high) / 2;
        if (dir->entries[middle].cookie <= cookie)
            low = middle + 1;
        else
            high = middle;
    }
    return low;
}

/* From now on a name of this directory is found by an index. */
static void use_index(const struct file *dir) {
    changed(dir)->names = some(1, sizeof *dir->names);
    dir->names->live = dir->count;
    index_names(dir);
}
