/* The memory of 100,000 names in so many directories, in plain C with malloc, which holds what any directory has to that finds names
 * by an index and lists them by rising cookie: of each name its row (the name, 32 bytes; its file and its place, 16; its hash, 8) and
 * a place (its cookie and its row, 12). The index has groups of 64 bytes, each for at most nine names on average; it doubles, and
 * the rows have room for as many names as it. The places double. links DIRECTORIES prints nothing; peak tells what it held.
 */
#include <stdlib.h>
#include <string.h>

enum { NAMES = 100000, NAME = 32, VALUE = 16, HASH = 8, PLACE = 12, GROUP = 64, GROUPED = 9 };

struct list {
    unsigned char *at;
    size_t count, room;
};

/* Room for so many. */
static void reserve(struct list *l, size_t room, size_t bytes) {
    if (!(l->at = realloc(l->at, (l->room = room) * bytes)))
        exit(1);
}

static void add(struct list *l, size_t bytes) {
    if (l->count == l->room)
        reserve(l, l->room ? 2 * l->room : 4, bytes);
    memset(l->at + l->count++ * bytes, 1, bytes);
}

/* The index grows to so many groups: the old one goes once all names are in the new one. */
static void grow(struct list *index, size_t groups) {
    unsigned char *old = index->at;
    if (!(index->at = malloc(groups * GROUP)))
        exit(1);
    memset(index->at, 1, groups * GROUP);
    free(old);
    index->room = groups;
}

int main(int count, char **words) {
    size_t directories = count > 1 ? strtoul(words[1], NULL, 10) : 0;
    for (size_t dir = 0; dir < directories; dir++) {
        struct list names = {0}, values = {0}, hashes = {0}, places = {0}, index = {0};
        for (size_t name = 0; name < NAMES / directories; name++) {
            if (name == index.room * GROUPED) {
                grow(&index, index.room ? 2 * index.room : 1);
                reserve(&names, index.room * GROUPED, NAME);
                reserve(&values, index.room * GROUPED, VALUE);
                reserve(&hashes, index.room * GROUPED, HASH);
            }
            add(&names, NAME), add(&values, VALUE), add(&hashes, HASH), add(&places, PLACE);
        }
    }
    return 0;
}
