/* Reads and writes journals by the tables of docs/PROTOCOL.md, and by nothing else:
 *   entries list FILE       prints a line for the first record, for each block and for each of its entries, its exports or its
 *                           description, and one for what was not written whole. What the tables don't allow ends it with status 1.
 *   entries record          prints what standard input has as a record, with its mark before it and its checksum after it
 *   entries block NUMBER    prints the entries of standard input as a block of this number, with its header before it
 *   entries text KIND NUMBER  prints a block of exports or of a description (2, 3) with the text of standard input */
#include <stdint.h>
#include <stdio.h>
#include <stdlib.h>
#include <string.h>

static unsigned char bytes[64 << 20];

/* The polynomial of CRC-32C, bit by bit, with the lowest bit first. */
static uint32_t crc32c(const unsigned char *at, size_t len) {
    uint32_t crc = 0xffffffff;
    for (size_t i = 0; i < len; i++) {
        crc ^= at[i];
        for (int bit = 0; bit < 8; bit++) crc = crc & 1 ? crc >> 1 ^ 0x82f63b78 : crc >> 1;
    }
    return ~crc;
}

static uint32_t number(const unsigned char *at) { return (uint32_t)at[0] << 24 | (uint32_t)at[1] << 16 | (uint32_t)at[2] << 8 | at[3]; }

static unsigned long long long_number(const unsigned char *at) { return (unsigned long long)number(at) << 32 | number(at + 4); }

static void put_number(unsigned char *at, uint32_t number) {
    for (int i = 0; i < 4; i++) at[i] = (unsigned char)(number >> (24 - 8 * i));
}

static void print_hex(const char *name, const unsigned char *at, size_t len) {
    printf(" %s=", name);
    for (size_t i = 0; i < len; i++) printf("%02x", at[i]);
}

static void fail(const char *what, size_t offset) {
    fflush(stdout);
    fprintf(stderr, "entries: %s at %zu\n", what, offset);
    exit(1);
}

/* How many bytes the record at this place has with its mark: one fragment, which is in so many bytes, with its checksum. */
static size_t record(size_t offset, size_t left) {
    if (left < 8 || !(bytes[offset] & 0x80)) fail("no record", offset);
    size_t len = number(bytes + offset) & 0x7fffffff;
    if (len < 4 || len > left - 4) fail("a record that ends elsewhere", offset);
    if (crc32c(bytes + offset + 4, len - 4) != number(bytes + offset + len)) fail("another checksum", offset);
    return len + 4;
}

static void print_head(void) {
    const unsigned char *body = bytes + 4;
    if (record(0, 78) != 78 || memcmp(body, "nfs3d journal\n", 14) != 0) fail("no head", 0);
    printf("head offset=0 bytes=78 version=%u", number(body + 14));
    print_hex("key", body + 18, 8);
    printf(" next=%llu cache=%u", long_number(body + 26), number(body + 34));
    print_hex("digest", body + 38, 32);
    printf("\n");
}

static void print_entry(unsigned count, size_t offset, size_t len) {
    const unsigned char *body = bytes + offset + 4;
    uint32_t reply = len < 24 ? 0 : number(body + 12);
    if (len < 24 || reply > len - 24) fail("no entry", offset);
    printf("entry %u offset=%zu bytes=%zu addr=%u.%u.%u.%u seconds=%u nanos=%u", count, offset, len, body[0], body[1], body[2],
        body[3], number(body + 4), number(body + 8));
    print_hex("reply", body + 16, reply);
    print_hex("call", body + 16 + reply, len - 24 - reply);
    printf("\n");
}

static void list(const char *name) {
    FILE *file = fopen(name, "rb");
    if (!file) fail("no file", 0);
    size_t all = fread(bytes, 1, sizeof bytes, file), offset = 78;
    if (all < 78) fail("no head", 0);
    print_head();
    for (unsigned block = 1, count = 0; offset < all; block++) {
        size_t left = all - offset, len = left < 20 ? 0 : number(bytes + offset + 12), entries = 0;
        const unsigned char *header = bytes + offset, *text = header + 20;
        uint32_t kind = left < 20 ? 1 : number(header);
        if (left >= 20 && (kind < 1 || kind > 3 || long_number(header + 4) != block || crc32c(header, 16) != number(header + 16)))
            fail("no header", offset);
        if (kind == 3 && (block != 2 || len > 1048580)) fail("no place for a description", offset);
        if (left < 20 || left - 20 < len) {
            printf("unfinished offset=%zu bytes=%zu\n", offset, left);
            return;
        }
        for (size_t at = 0; kind == 1 && at < len; entries++) at += record(offset + 20 + at, len - at);
        printf("block %u kind=%u offset=%zu bytes=%zu entries=%zu\n", block, kind, offset, 20 + len, entries);
        if (kind != 1) {
            if (len < 4 || crc32c(text, len - 4) != number(text + len - 4)) fail("another checksum", offset);
            printf(kind == 2 ? "exports" : "description");
            print_hex("text", text, len - 4);
            printf("\n");
        }
        for (size_t at = 0, one; kind == 1 && at < len; at += one) {
            one = record(offset + 20 + at, len - at);
            print_entry(++count, offset + 20 + at, one);
        }
        offset += 20 + len;
    }
}

static void write_record(size_t len) {
    unsigned char mark[4], sum[4];
    put_number(mark, 0x80000000u | (uint32_t)(len + 4));
    put_number(sum, crc32c(bytes, len));
    fwrite(mark, 1, 4, stdout);
    fwrite(bytes, 1, len, stdout);
    fwrite(sum, 1, 4, stdout);
}

static void write_block(uint32_t kind, unsigned long long count, size_t len) {
    unsigned char header[20];
    put_number(header, kind);
    put_number(header + 4, (uint32_t)(count >> 32));
    put_number(header + 8, (uint32_t)count);
    put_number(header + 12, (uint32_t)len);
    put_number(header + 16, crc32c(header, 16));
    fwrite(header, 1, 20, stdout);
    fwrite(bytes, 1, len, stdout);
}

int main(int count, char **words) {
    if (count == 3 && strcmp(words[1], "list") == 0) {
        list(words[2]);
    } else if (count == 2 && strcmp(words[1], "record") == 0) {
        write_record(fread(bytes, 1, sizeof bytes, stdin));
    } else if (count == 3 && strcmp(words[1], "block") == 0) {
        write_block(1, strtoull(words[2], NULL, 10), fread(bytes, 1, sizeof bytes, stdin));
    } else if (count == 4 && strcmp(words[1], "text") == 0) {
        size_t len = fread(bytes, 1, sizeof bytes - 4, stdin);
        put_number(bytes + len, crc32c(bytes, len));
        write_block((uint32_t)strtoul(words[2], NULL, 10), strtoull(words[3], NULL, 10), len + 4);
    } else {
        fprintf(stderr, "entries: the words are list FILE, record, block NUMBER, or text KIND NUMBER\n");
        return 2;
    }
    return 0;
}
