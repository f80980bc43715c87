// What a shell can't ask of files: files WHAT PATH. Prints nothing and ends with 0 where all is as it should be.
#define _GNU_SOURCE
#include <errno.h>
#include <fcntl.h>
#include <stdio.h>
#include <stdlib.h>
#include <string.h>
#include <sys/mman.h>
#include <sys/stat.h>
#include <unistd.h>

static int fail(const char *what)
{
    perror(what);
    return 1;
}

// A file that others have removed or replaced is still read and written by who has it open.
static int open_file(const char *path, int replaced)
{
    char other[4096], byte;
    int fd = open(path, O_RDWR | O_CREAT | O_TRUNC, 0644);
    if (fd < 0 || write(fd, "old", 3) != 3)
        return fail("write");
    if (replaced) {
        snprintf(other, sizeof other, "%s.other", path);
        int fd2 = open(other, O_WRONLY | O_CREAT, 0644);
        if (fd2 < 0 || write(fd2, "new", 3) != 3 || close(fd2) != 0 || rename(other, path) != 0)
            return fail("rename");
    } else if (unlink(path) != 0)
        return fail("unlink");
    if (pread(fd, &byte, 1, 0) != 1 || byte != 'o')
        return fail("read");
    if (pwrite(fd, "O", 1, 0) != 1 || fsync(fd) != 0 || pread(fd, &byte, 1, 0) != 1 || byte != 'O')
        return fail("write again");
    close(fd);
    if (!replaced)
        return access(path, F_OK) == 0 ? fail("still there") : 0;
    fd = open(path, O_RDONLY);
    return fd < 0 || pread(fd, &byte, 1, 0) != 1 || byte != 'n' ? fail("the new file") : 0;
}

// Exactly one of two makes a file that may not be there.
static int exclusive(const char *path)
{
    int fd = open(path, O_WRONLY | O_CREAT | O_EXCL, 0600);
    if (fd < 0)
        return fail("create");
    if (open(path, O_WRONLY | O_CREAT | O_EXCL, 0600) >= 0 || errno != EEXIST)
        return fail("create again");
    return close(fd);
}

// What is written to a shared mapping is in the file.
static int mapped(const char *path)
{
    int fd = open(path, O_RDWR | O_CREAT | O_TRUNC, 0644);
    size_t len = 1 << 20;
    if (fd < 0 || ftruncate(fd, len) != 0)
        return fail("truncate");
    unsigned char *bytes = mmap(NULL, len, PROT_READ | PROT_WRITE, MAP_SHARED, fd, 0);
    if (bytes == MAP_FAILED)
        return fail("mmap");
    for (size_t i = 0; i < len; i++)
        bytes[i] = i * 7 + i / 4096;
    if (msync(bytes, len, MS_SYNC) != 0 || munmap(bytes, len) != 0)
        return fail("msync");
    for (size_t i = 0; i < len; i += 997) {
        unsigned char byte;
        if (pread(fd, &byte, 1, i) != 1 || byte != (unsigned char)(i * 7 + i / 4096))
            return fail("read");
    }
    return close(fd);
}

// A file with a hole of 200 MB reads as zeros there.
static int hole(const char *path)
{
    int fd = open(path, O_RDWR | O_CREAT | O_TRUNC, 0644);
    char bytes[4096];
    if (fd < 0 || pwrite(fd, "end", 3, 200000000) != 3 || fsync(fd) != 0)
        return fail("write");
    memset(bytes, 1, sizeof bytes);
    if (pread(fd, bytes, sizeof bytes, 100000000) != sizeof bytes)
        return fail("read");
    for (size_t i = 0; i < sizeof bytes; i++)
        if (bytes[i] != 0)
            return fail("zeros");
    return close(fd);
}

int main(int argc, char **argv)
{
    if (argc != 3)
        return 2;
    if (strcmp(argv[1], "removed") == 0)
        return open_file(argv[2], 0);
    if (strcmp(argv[1], "replaced") == 0)
        return open_file(argv[2], 1);
    if (strcmp(argv[1], "exclusive") == 0)
        return exclusive(argv[2]);
    if (strcmp(argv[1], "mapped") == 0)
        return mapped(argv[2]);
    if (strcmp(argv[1], "hole") == 0)
        return hole(argv[2]);
    return 2;
}
