/* Calls that change files, ACCESS and GETATTR, written plainly.
 *
 * A call is read with its bounds tested, its credential squashed, its rules tested in their order, and the reply written
 * with its mark. Files stand in an array sorted by their numbers; a name, and a file's bytes, are allocated. Who includes
 * this has the exports and the limits of volumes.
 */
#include "directory.h"
#include <stdio.h>

enum { MAX_FILE = 16777216 };

struct limits {
    uint64_t bytes, files, used, made;
};

static struct file *files;
static struct limits volumes[2];
static struct server s;
static struct moment at_now = {100, 0}; /* the moment of a call */

struct call {
    uint32_t xid, proc, address, rule_uid;
    const char *rule;
    struct ids ids;
    const struct export *export;
    struct input in;
};

/* ---- weak cache data */

struct before {
    const struct file *file;
    uint64_t size;
    struct moment mtime, ctime;
};

static struct before seen(const struct file *f) { return (struct before){f, f->size, f->mtime, f->ctime}; }

static unsigned char *wcc(unsigned char *at, const struct before *b) {
    at = put64(put(at, 1), b->size);
    at = put(put(put(put(at, b->mtime.seconds), b->mtime.nanos), b->ctime.seconds), b->ctime.nanos);
    return shown(at, b->file);
}

/* ---- rules */

static uint32_t fails(struct call *c, const char *rule, uint32_t status) {
    c->rule = rule;
    return status;
}

static uint32_t name_fails(struct call *c, struct bytes name) {
    if (name.len > 255)
        return fails(c, "name-long", 63);
    if (name.len == 0)
        return fails(c, "name-form", 13);
    for (uint32_t i = 0; i < name.len; i++)
        if (name.at[i] == 0 || name.at[i] == '/')
            return fails(c, "name-form", 13);
    return 0;
}

static int is_dots(struct bytes name) { return (name.len == 1 && name.at[0] == '.') || (name.len == 2 && name.at[0] == '.' && name.at[1] == '.'); }

static uint32_t handle_of(struct call *c, const struct file **file) {
    struct bytes handle;
    if (!opaque(&c->in, 64, &handle))
        return UINT32_MAX;
    uint32_t status = named(&s, handle, file);
    if (status != 0)
        return fails(c, status == 70 ? "stale-handle" : "bad-handle", status);
    if (!(c->export = grant(&s, (*file)->volume, c->address)))
        return fails(c, "export", 13);
    return 0;
}

static void judge(struct call *c) {
    squash(c->export, &c->ids);
    c->rule_uid = c->ids.uid;
}

static uint32_t dir_fails(struct call *c, const struct file *dir, struct bytes name, int dots) {
    uint32_t status;
    if (dir->type != 2)
        return fails(c, "not-dir", 20);
    if (dots && is_dots(name))
        return fails(c, "dot-name", 22);
    if ((status = name_fails(c, name)))
        return status;
    if (!(rights(&c->ids, dir) & 1))
        return fails(c, "search", 13);
    return 0;
}

/* ---- changes */

static void touch(const struct file *f) { changed(f)->mtime = changed(f)->ctime = at_now; }

static void enter(const struct file *dir, struct bytes name, const struct file *f) {
    add_name(dir, name, f, (size_t)(f - files));
    touch(dir);
}

static void leave(const struct file *dir, struct entry *e) {
    drop_name(dir, e);
    touch(dir);
}

static const struct file *file_of(const struct entry *e) { return find_at(&s, e->number, e->slot); }

/* One file more, of a caller. */
static struct file *add_file(uint32_t type, uint32_t mode, const struct ids *ids, const struct file *dir) {
    struct file *f = &files[s.count++];
    *f = (struct file){.number = s.next++, .type = type, .mode = mode, .nlink = type, .uid = ids->uid, .gid = ids->gid, .volume = dir->volume, .parent = dir->number,
        .atime = at_now, .mtime = at_now, .ctime = at_now};
    if (type == 2)
        f->size = 4096, f->entries = some(ROWS, sizeof *f->entries);
    volumes[dir->volume].made++;
    return f;
}

static unsigned char *put_handle(unsigned char *at, const struct file *f) {
    at = put(at, HANDLE);
    memcpy(at, "NFS3", 4);
    memcpy(at + 4, s.key, 8);
    return put64(put(at + 12, s.tagged ? (uint32_t)(f - files) : 0), f->number);
}

static void drop(const struct file *f) {
    size_t place = (size_t)(f - files);
    if (f->type == 2)
        free((void *)f->entries);
    else
        volumes[f->volume].used -= f->size;
    volumes[f->volume].made--;
    free((void *)f->bytes);
    memmove(changed(f), f + 1, (s.count - place - 1) * sizeof *f);
    s.count--;
}

/* ---- procedures: each is answered after its status */

static unsigned char *do_access(struct call *c, unsigned char *at) {
    const struct file *f = NULL;
    uint32_t asked, status = handle_of(c, &f), given = 0;
    if (!get(&c->in, &asked))
        return NULL;
    if (status)
        return shown(put(at, status), NULL);
    judge(c);
    uint32_t r = rights(&c->ids, f);
    given |= r & 4 ? 1 : 0;
    given |= r & 1 && f->type == 2 ? 2 : 0;
    given |= r & 2 ? 12 : 0;
    given |= (r & 3) == 3 && f->type == 2 ? 16 : 0;
    given |= r & 1 && f->type == 1 ? 32 : 0;
    return put(shown(put(at, 0), f), given & asked);
}

static unsigned char *do_getattr(struct call *c, unsigned char *at) {
    const struct file *f = NULL;
    uint32_t status = handle_of(c, &f);
    return status ? put(at, status) : attributes(put(at, 0), f);
}

/* of the settings a mode alone is kept here; the others are read */
static int settings_of(struct input *in, uint32_t *has_mode, uint32_t *mode) {
    uint32_t n, other;
    *mode = 0;
    if (!get(in, has_mode) || *has_mode > 1 || (*has_mode && !get(in, mode)))
        return 0;
    for (int i = 0; i < 2; i++)
        if (!get(in, &n) || n > 1 || (n && !get(in, &other)))
            return 0;
    if (!get(in, &n) || n > 1 || (n && (!get(in, &other) || !get(in, &other))))
        return 0;
    for (int i = 0; i < 2; i++)
        if (!get(in, &n) || n > 2 || (n == 2 && (!get(in, &other) || !get(in, &other))))
            return 0;
    return 1;
}

static unsigned char *do_setattr(struct call *c, unsigned char *at) {
    const struct file *f = NULL;
    uint32_t has_mode, mode, guarded, status = handle_of(c, &f);
    if (!settings_of(&c->in, &has_mode, &mode) || !get(&c->in, &guarded) || guarded > 1)
        return NULL;
    if (status)
        return put(put(put(at, status), 0), 0);
    judge(c);
    struct before before = seen(f);
    if (has_mode && c->ids.uid != 0 && c->ids.uid != f->uid)
        status = fails(c, "owner-mode", 1);
    else if (has_mode) {
        changed(f)->mode = mode & 07777;
        changed(f)->ctime = at_now;
    }
    return wcc(put(at, status), &before);
}

static unsigned char *do_write(struct call *c, unsigned char *at) {
    const struct file *f = NULL;
    uint32_t high, low, count, stable, status = handle_of(c, &f);
    struct bytes data;
    if (!get(&c->in, &high) || !get(&c->in, &low) || !get(&c->in, &count) || !get(&c->in, &stable) || stable > 2 || !opaque(&c->in, UINT32_MAX, &data) || data.len != count)
        return NULL;
    if (status)
        return put(put(put(at, status), 0), 0);
    judge(c);
    struct before before = seen(f);
    uint64_t offset = (uint64_t)high << 32 | low, size = offset + count > f->size ? offset + count : f->size;
    if (f->type != 1)
        status = fails(c, "not-regular", 22);
    else if (c->ids.uid != f->uid && !(rights(&c->ids, f) & 2))
        status = fails(c, "write-right", 13);
    else if (count > 0 && (offset > MAX_FILE || offset + count > MAX_FILE))
        status = fails(c, "too-big", 27);
    else if (volumes[f->volume].used - f->size + size > volumes[f->volume].bytes)
        status = fails(c, "space", 28);
    if (status)
        return wcc(put(at, status), &before);
    if (size > f->size) {
        unsigned char *grown = realloc((void *)f->bytes, size);
        memset(grown + f->size, 0, size - f->size);
        volumes[f->volume].used += size - f->size;
        changed(f)->bytes = grown;
        changed(f)->size = size;
    }
    memcpy((void *)(f->bytes + offset), data.at, count);
    touch(f);
    if (count > 0 && c->ids.uid != 0)
        changed(f)->mode &= 01777;
    at = put(put(wcc(put(at, 0), &before), count), 2);
    memcpy(at, s.key, 8);
    return at + 8;
}

/* CREATE and MKDIR. */
static unsigned char *do_make(struct call *c, unsigned char *at) {
    const struct file *dir = NULL;
    uint32_t type = c->proc == 8 ? 1 : 2, how, has_mode, mode, status = handle_of(c, &dir);
    struct bytes name;
    if (!opaque(&c->in, UINT32_MAX, &name) || (type == 1 && (!get(&c->in, &how) || how > 1)) || !settings_of(&c->in, &has_mode, &mode))
        return NULL;
    if (status)
        return put(put(put(at, status), 0), 0);
    judge(c);
    struct before before = seen(dir);
    struct limits *v = &volumes[dir->volume];
    if (!(status = dir_fails(c, dir, name, 0))) {
        if (is_dots(name) || entry_of(dir, name))
            status = fails(c, "exists", 17);
        else if (!(rights(&c->ids, dir) & 2))
            status = fails(c, "dir-write", 13);
        else if (v->made >= v->files)
            status = fails(c, "files", 28);
    }
    if (status)
        return wcc(put(at, status), &before);
    const struct file *f = add_file(type, has_mode ? mode & 07777 : type == 1 ? 0600 : 0700, &c->ids, dir);
    enter(dir, name, f);
    if (type == 2)
        changed(dir)->nlink++;
    return wcc(shown(put_handle(put(put(at, 0), 1), f), f), &before);
}

/* Whether a directory that restricts deletion lets the entry of a file go. */
static int lets_go(const struct call *c, const struct file *dir, const struct file *f) {
    return !(dir->mode & 01000) || c->ids.uid == 0 || c->ids.uid == dir->uid || c->ids.uid == f->uid;
}

/* REMOVE and RMDIR. */
static unsigned char *do_remove(struct call *c, unsigned char *at) {
    const struct file *dir = NULL, *f = NULL;
    struct entry *e = NULL;
    struct bytes name;
    uint32_t status = handle_of(c, &dir);
    if (!opaque(&c->in, UINT32_MAX, &name))
        return NULL;
    if (status)
        return put(put(put(at, status), 0), 0);
    judge(c);
    struct before before = seen(dir);
    if (!(status = dir_fails(c, dir, name, 1))) {
        if (!(e = entry_of(dir, name)))
            status = fails(c, "no-entry", 2);
        else if (!(rights(&c->ids, dir) & 2))
            status = fails(c, "dir-write", 13);
        else if (!lets_go(c, dir, f = file_of(e)))
            status = fails(c, "sticky", 1);
        else if (c->proc == 12 && f->type == 2)
            status = fails(c, "is-dir", 21);
        else if (c->proc == 13 && f->type != 2)
            status = fails(c, "not-dir", 20);
        else if (c->proc == 13 && f->count > 0)
            status = fails(c, "not-empty", 66);
    }
    if (!status) {
        leave(dir, e);
        changed(f)->ctime = at_now;
        if (f->type == 2)
            changed(f)->nlink = 1, changed(dir)->nlink--;
        if (--changed(f)->nlink == 0)
            drop(f);
    }
    return wcc(put(at, status), &before);
}

static unsigned char *do_rename(struct call *c, unsigned char *at) {
    const struct file *from = NULL, *to = NULL, *f;
    struct entry *e = NULL, *other;
    struct bytes old_name, new_name;
    uint32_t status = handle_of(c, &from), second;
    if (!opaque(&c->in, UINT32_MAX, &old_name))
        return NULL;
    second = handle_of(c, &to);
    if (!opaque(&c->in, UINT32_MAX, &new_name))
        return NULL;
    status = status ? status : second;
    if (status || from->volume != to->volume)
        return put(put(put(put(put(at, status ? status : 18), 0), 0), 0), 0);
    judge(c);
    struct before one = seen(from), two = seen(to);
    if (!(status = dir_fails(c, from, old_name, 1)) && !(status = dir_fails(c, to, new_name, 1))) {
        if (!(e = entry_of(from, old_name)))
            status = fails(c, "no-entry", 2);
        else if (!(rights(&c->ids, from) & rights(&c->ids, to) & 2))
            status = fails(c, "dir-write", 13);
    }
    if (!status) {
        uint64_t number = e->number;
        f = file_of(e);
        other = entry_of(to, new_name);
        if (!other || other->number != number) {
            if (!lets_go(c, from, f) || (other && !lets_go(c, to, file_of(other))))
                status = fails(c, "sticky", 1);
            else if (other && (f->type == 2 || file_of(other)->type == 2))
                status = fails(c, "incompatible", 17);
            else {
                leave(from, e);
                if ((other = entry_of(to, new_name))) {
                    const struct file *gone = file_of(other);
                    leave(to, other);
                    if (--changed(gone)->nlink == 0)
                        drop(gone);
                }
                f = find(&s, number);
                enter(to, new_name, f);
                changed(f)->ctime = at_now;
            }
        }
    }
    return wcc(wcc(put(at, status), &one), &two);
}
