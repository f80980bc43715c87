/* Spoils a journal at many places, one at a time, and judges what the program makes of it:
 *   spoils PROGRAM TREE JOURNAL WORK FIRST EVERY
 * with the list of the journal on standard input, as `entries list` prints it: where its blocks and entries stand is what that
 * second program says. WORK is
 *   cut      the journal has so many bytes, and no more
 *   change   the byte there is one more than it was
 * The places are the first FIRST bytes, of each block after them the header, of each entry the record mark, of both the last byte,
 * and each EVERY-th place. `PROGRAM replay TREE --journal` runs on a copy of the journal, and has to
 *   - refuse one that is cut within its first record;
 *   - run the entries of the blocks that are whole again, where it is cut anywhere else: exactly these. Where it is cut before the
 *     first block of entries, it may be refused;
 *   - refuse one with another byte, and say where: the number and the place of the entry that has the byte; where no entry has it,
 *     the number of the next entry and the place of the block. A last block that ends with a zero then may stand for one
 *     that was not written whole: the entries before it are run again. Where a description has the byte, behind the header of its
 *     block, all entries are.
 * As many run at once as there are processors. It prints how many places there were; what isn't so is reported, with status 1. */
#define _GNU_SOURCE
#include <fcntl.h>
#include <signal.h>
#include <spawn.h>
#include <stdio.h>
#include <stdlib.h>
#include <string.h>
#include <sys/mman.h>
#include <sys/prctl.h>
#include <sys/stat.h>
#include <sys/wait.h>
#include <unistd.h>

enum { HEAD = 78, HEADER = 20, MARK = 4, DESCRIPTION = 3, MOST = 1 << 16, TEXT = 4096, REPORTED = 5 };

/* A block with so many entries, or an entry; `before` counts the entries before it. */
typedef struct {
    size_t offset, bytes, before, entries;
    unsigned kind;
} Part;

static Part blocks[MOST], entries[MOST];
static size_t block_count, entry_count, all, place_count;
static unsigned char *bytes, *is_place;
static char **words;

/* What a run brought. */
static char out[TEXT], err[TEXT];
static int status, wrong;

static void fail(const char *what) {
    fprintf(stderr, "spoils: %s\n", what);
    exit(1);
}

/* ---- the journal */

static void read_list(void) {
    char *line = NULL;
    size_t room = 0;
    while (getline(&line, &room, stdin) > 0) {
        Part part = {.before = entry_count};
        if (sscanf(line, "block %*u kind=%u offset=%zu bytes=%zu entries=%zu", &part.kind, &part.offset, &part.bytes, &part.entries) == 4) {
            if (block_count == MOST) fail("too many blocks");
            blocks[block_count++] = part;
        } else if (sscanf(line, "entry %*u offset=%zu bytes=%zu", &part.offset, &part.bytes) == 2) {
            if (entry_count == MOST) fail("too many entries");
            entries[entry_count++] = part;
        }
    }
    free(line);
    if (block_count == 0 || blocks[block_count - 1].offset + blocks[block_count - 1].bytes != all) fail("a list of another journal");
}

static void read_journal(const char *name) {
    struct stat found;
    int file = open(name, O_RDONLY);
    if (file < 0 || fstat(file, &found) != 0) fail("no journal");
    all = (size_t)found.st_size;
    bytes = malloc(all), is_place = calloc(all + 1, 1);
    if (!bytes || !is_place || read(file, bytes, all) != (ssize_t)all) fail("the journal can't be read");
    close(file);
}

static void mark_places(size_t from, size_t len) {
    for (size_t i = from; i < from + len && i < all; i++) is_place[i] = 1;
}

static void choose_places(size_t first, size_t every) {
    mark_places(0, first);
    for (size_t i = 0; i < block_count; i++) mark_places(blocks[i].offset, HEADER), mark_places(blocks[i].offset + blocks[i].bytes - 1, 1);
    for (size_t i = 0; i < entry_count; i++) mark_places(entries[i].offset, MARK), mark_places(entries[i].offset + entries[i].bytes - 1, 1);
    for (size_t i = 0; i < all; i += every) is_place[i] = 1;
    for (size_t i = 0; i < all; i++) place_count += is_place[i];
}

/* ---- runs */

/* What stands in a file in memory, which is empty then. */
static void drain(int file, char *to) {
    ssize_t len = pread(file, to, TEXT - 1, 0);
    to[len > 0 ? len : 0] = 0;
    if (ftruncate(file, 0) != 0 || lseek(file, 0, SEEK_SET) != 0) fail("no file in memory");
}

static void run(const char *journal) {
    static int kept[2];
    static posix_spawn_file_actions_t actions;
    extern char **environ;
    char *argv[] = {words[1], "replay", words[2], "--journal", (char *)journal, NULL};
    pid_t process;
    if (kept[0] == 0) {
        posix_spawn_file_actions_init(&actions);
        for (int i = 0; i < 2; i++) {
            if ((kept[i] = memfd_create("out", 0)) < 0) fail("no file in memory");
            posix_spawn_file_actions_adddup2(&actions, kept[i], i + 1);
        }
    }
    if (posix_spawn(&process, words[1], &actions, NULL, argv, environ) != 0 || waitpid(process, &status, 0) != process) fail("the program doesn't run");
    status = WIFEXITED(status) ? WEXITSTATUS(status) : 128 + WTERMSIG(status);
    drain(kept[0], out), drain(kept[1], err);
}

/* ---- what it has to bring */

/* Whether so many entries were run again, which end at END, in a journal of LEN bytes. */
static int goes_on(size_t count, size_t end, size_t len) {
    char wanted[128], rest[64] = "";
    if (end < len) snprintf(rest, sizeof rest, " unfinished=%zu", len - end);
    snprintf(wanted, sizeof wanted, "ok entries=%zu bytes=%zu%s\n", count, end, rest);
    return status == 0 && strcmp(out, wanted) == 0;
}

static int is_refused(const char *journal, const char *why) {
    char wanted[TEXT];
    snprintf(wanted, sizeof wanted, "nfs3d: %s: %s", journal, why);
    const char *found = strstr(err, wanted);
    return status == 3 && out[0] == 0 && found && (found == err || found[-1] == '\n');
}

/* Whether the damage is said to be at this entry, counted from 0, and at this place. */
static int is_damaged_at(const char *journal, size_t entry, size_t offset) {
    char why[128];
    snprintf(why, sizeof why, "entry %zu at offset %zu is damaged: ", entry + 1, offset);
    return is_refused(journal, why);
}

static int is_right_cut(const char *journal, size_t len) {
    size_t whole = 0, count = 0, end = HEAD;
    if (len < HEAD) return is_refused(journal, "");
    for (; whole < block_count && blocks[whole].offset + blocks[whole].bytes <= len; whole++) {
        count += blocks[whole].entries;
        end = blocks[whole].offset + blocks[whole].bytes;
    }
    int has_none = whole < block_count && blocks[whole].before == 0 && blocks[whole].entries == 0;
    return goes_on(count, end, len) || (has_none && end < len && is_refused(journal, ""));
}

static int is_right_change(const char *journal, size_t at) {
    size_t block = block_count;
    if (at < HEAD) return is_refused(journal, "");
    while (blocks[--block].offset > at) {}
    const Part *within = &blocks[block];
    unsigned char last = (unsigned char)(bytes[all - 1] + (at == all - 1));
    if (block == block_count - 1 && last == 0 && goes_on(within->before, within->offset, all)) return 1;
    if (within->kind == DESCRIPTION && at >= within->offset + HEADER) return goes_on(entry_count, all, all);
    if (at < within->offset + HEADER || within->entries == 0) return is_damaged_at(journal, within->before, within->offset);
    size_t damaged = within->before;
    while (damaged + 1 < within->before + within->entries && entries[damaged + 1].offset <= at) damaged++;
    return is_damaged_at(journal, damaged, entries[damaged].offset);
}

/* ---- places */

static void judge(const char *journal, int cuts, size_t at) {
    run(journal);
    if (cuts ? is_right_cut(journal, at) : is_right_change(journal, at)) return;
    if (wrong++ < REPORTED) fprintf(stderr, "spoils: %s at %zu: status %d, %s%s\n", cuts ? "cut" : "changed", at, status, out, err);
}

/* Tries each place whose number leaves this rest, the last one first, on a copy of the journal. */
static int try_places(size_t rest, size_t workers, int cuts) {
    char journal[TEXT];
    snprintf(journal, sizeof journal, "%s.%zu", words[3], rest);
    int file = open(journal, O_RDWR | O_CREAT | O_TRUNC, 0600);
    if (file < 0 || write(file, bytes, all) != (ssize_t)all) fail("no copy of the journal");
    for (size_t at = all, number = 0; at-- > 0;) {
        if (!is_place[at] || number++ % workers != rest) continue;
        unsigned char other = (unsigned char)(bytes[at] + 1);
        if (cuts ? ftruncate(file, (off_t)at) != 0 : pwrite(file, &other, 1, (off_t)at) != 1) fail("no copy of the journal");
        judge(journal, cuts, at);
        if (!cuts && pwrite(file, bytes + at, 1, (off_t)at) != 1) fail("no copy of the journal");
    }
    unlink(journal);
    return wrong > 0;
}

int main(int count, char **all_words) {
    words = all_words;
    if (count != 7 || (strcmp(words[4], "cut") != 0 && strcmp(words[4], "change") != 0) || atoi(words[6]) < 1) {
        fprintf(stderr, "usage: spoils PROGRAM TREE JOURNAL cut|change FIRST EVERY <LIST\n");
        return 2;
    }
    int cuts = strcmp(words[4], "cut") == 0, failed = 0, ended;
    size_t workers = (size_t)sysconf(_SC_NPROCESSORS_ONLN);
    read_journal(words[3]);
    read_list();
    choose_places(strtoul(words[5], NULL, 10), strtoul(words[6], NULL, 10));
    for (size_t i = 0; i < workers; i++) {
        pid_t worker = fork();
        if (worker < 0) fail("no process");
        if (worker == 0) {
            prctl(PR_SET_PDEATHSIG, SIGKILL);
            exit(try_places(i, workers, cuts));
        }
    }
    while (wait(&ended) > 0) failed |= ended != 0;
    printf("%s at %zu places of %zu bytes\n", cuts ? "cut" : "changed", place_count, all);
    return failed;
}
