/* The baselines of pages of directories: the same bytes, written plainly from an array of the same
 * entries, as many as fit.
 */
#include "entries.h"
#include "timed.h"

enum { ENTRIES = 1002, NAME = 4, ROOM = 65536 };

static char names[ENTRIES][NAME + 1];
static struct attributes files[ENTRIES];
static struct entry entries[ENTRIES];
static unsigned char out[ROOM];

static size_t write_page(size_t room, int plus) { return page(out, entries, ENTRIES, room, plus ? FILE_BYTES : 0); }

int main(void) {
    for (uint32_t i = 0; i < ENTRIES; i++) {
        uint32_t file = i < 2 ? 0 : i - 2;
        for (int letter = 0; letter < NAME; letter++)
            names[i][letter] = (char)('a' + (file >> (12 - 4 * letter) & 15));
        strcpy(names[i], i == 0 ? "." : i == 1 ? ".." : names[i]);
        files[i] = (struct attributes){ .type = 1, .mode = 0755, .nlink = 1, .fsid = 1, .fileid = i + 1 };
        entries[i] = (struct entry){ .number = i + 1, .cookie = i + 1, .len = (uint32_t)strlen(names[i]), .name = names[i], .attributes = &files[i] };
    }
    measure("page-1000", write_page, ROOM, 0);
    measure("page-plus-200", write_page, PAGE_HEAD + 200 * (28 + FILE_BYTES), 1);
    return 0;
}
