/* The baselines of pages of directories as a server has to write them, which finds the file of each entry by its slot: the same
 * bytes as of pages.c.
 */
#include "answer.h"
#include "timed.h"

enum { NAMES = 1000, NAME = 4 };

static unsigned char out[MAX_LIST];

static size_t write_page(size_t room, int plus) { return (size_t)(put_entries(out, room - PAGE_HEAD, &files[0], 0, plus) - out); }

int main(void) {
    s = (struct server){.tagged = 1};
    s.files = files = some(NAMES + 1, sizeof *files);
    file(0, 2, 0755, 0, 0, 0);
    for (uint32_t i = 0; i < NAMES; i++) {
        unsigned char name[NAME];
        for (int letter = 0; letter < NAME; letter++)
            name[letter] = (unsigned char)('a' + (i >> (12 - 4 * letter) & 15));
        file(1 + i, 1, 0755, 0, 0, 0);
        enter(&files[0], (struct bytes){name, NAME}, &files[1 + i]);
    }
    s.count = NAMES + 1;
    measure("found-1000", write_page, MAX_LIST, 0);
    measure("found-plus-200", write_page, PAGE_HEAD + 200 * (28 + 4 + 84 + 4 + 4 + HANDLE), 1);
    return 0;
}
