/* LOOKUP, READ, READDIR and READDIRPLUS, written plainly. */

/* PAGE_HEAD is how many bytes of a page are no entry's: the directory's attributes, the verifier and the end. */
enum { MAX_READ = 131072, MAX_LIST = 65536, PAGE_HEAD = 88 + 8 + 8 };

static unsigned char *do_lookup(struct call *c, unsigned char *at) {
    const struct file *dir = NULL, *found;
    struct bytes name;
    uint32_t status = handle_of(c, &dir);
    if (!opaque(&c->in, UINT32_MAX, &name))
        return NULL;
    if (status)
        return shown(put(at, status), NULL);
    judge(c);
    if ((status = dir_fails(c, dir, name, 0)))
        return shown(put(at, status), dir);
    if (is_dots(name))
        found = name.len == 1 ? dir : find(&s, dir->parent);
    else {
        const struct entry *e = entry_of(dir, name);
        if (!e)
            return shown(put(at, fails(c, "no-entry", 2)), dir);
        found = file_of(e);
    }
    return shown(shown(put_handle(put(at, 0), found), found), dir);
}

static unsigned char *do_read(struct call *c, unsigned char *at) {
    const struct file *f = NULL;
    uint32_t high, low, asked, status = handle_of(c, &f);
    if (!get(&c->in, &high) || !get(&c->in, &low) || !get(&c->in, &asked))
        return NULL;
    if (status)
        return shown(put(at, status), NULL);
    judge(c);
    if (f->type != 1)
        return shown(put(at, fails(c, "not-regular", 22)), f);
    if (c->ids.uid != f->uid && !(rights(&c->ids, f) & 5))
        return shown(put(at, fails(c, "read-right", 13)), f);
    uint64_t offset = (uint64_t)high << 32 | low, left = offset < f->size ? f->size - offset : 0;
    uint32_t n = asked < MAX_READ ? asked : MAX_READ;
    n = left < n ? (uint32_t)left : n;
    at = put(put(put(shown(put(at, 0), f), n), left <= n), n);
    if (n > 0)
        memcpy(at, f->bytes + offset, n);
    memset(at + n, 0, -n & 3);
    return at + n + (-n & 3);
}

/* An entry of a page, where `room` has as many bytes; NULL elsewhere. A READDIRPLUS has its file's attributes and handle too. */
static unsigned char *put_entry(unsigned char *at, size_t room, struct bytes name, uint64_t cookie, const struct file *f, uint64_t number) {
    uint32_t padding = -name.len & 3;
    if (room < 24 + name.len + padding + (f ? 4 + 84 + 4 + 4 + HANDLE : 0))
        return NULL;
    at = put(put64(put(at, 1), number), name.len);
    memcpy(at, name.at, name.len);
    memset(at + name.len, 0, padding);
    at = put64(at + name.len + padding, cookie);
    return f ? put_handle(put(shown(at, f), 1), f) : at;
}

/* As many entries after a cookie as `room` has bytes for, and whether these are the last. */
static unsigned char *put_entries(unsigned char *at, size_t room, const struct file *dir, uint64_t cookie, int plus) {
    unsigned char *end = at + room, *next = at;
    for (; next && cookie < DOTS; cookie++) {
        const struct file *f = cookie == 0 ? dir : find(&s, dir->parent);
        next = put_entry(at, (size_t)(end - at), (struct bytes){(const unsigned char *)"..", (uint32_t)cookie + 1}, cookie + 1, plus ? f : NULL, f->number);
        at = next ? next : at;
    }
    for (size_t row = row_after(dir, cookie); next && row < dir->count; row++) {
        const struct entry *e = &dir->entries[row];
        if (e->number == 0)
            continue;
        next = put_entry(at, (size_t)(end - at), (struct bytes){(const unsigned char *)e->name, (uint32_t)e->len}, e->cookie, plus ? file_of(e) : NULL, e->number);
        at = next ? next : at;
    }
    return put(put(at, 0), next != NULL);
}

/* READDIR and READDIRPLUS. */
static unsigned char *do_list(struct call *c, unsigned char *at) {
    const struct file *dir = NULL;
    int plus = c->proc == 17;
    uint32_t high, low, other, asked, status = handle_of(c, &dir);
    if (!get(&c->in, &high) || !get(&c->in, &low) || !get(&c->in, &other) || !get(&c->in, &other) || !get(&c->in, &asked) || (plus && !get(&c->in, &asked)))
        return NULL;
    if (status)
        return shown(put(at, status), NULL);
    judge(c);
    if (dir->type != 2)
        return shown(put(at, fails(c, "not-dir", 20)), dir);
    if (!(rights(&c->ids, dir) & 4) || (plus && !(rights(&c->ids, dir) & 1)))
        return shown(put(at, fails(c, "read-right", 13)), dir);
    asked = asked < MAX_LIST ? asked : MAX_LIST;
    if (asked < PAGE_HEAD)
        return shown(put(at, fails(c, "too-small", 10005)), dir);
    return put_entries(put64(shown(put(at, 0), dir), 0), asked - PAGE_HEAD, dir, (uint64_t)high << 32 | low, plus);
}
