/* Records made of XDR words and opaque data (RFC 4506), and numbers that a seed determines. Define MOST_RECORD, the most bytes
 * of a record, before you include it. */
#include <arpa/inet.h>
#include <stdint.h>
#include <string.h>

typedef struct {
    unsigned char bytes[MOST_RECORD];
    size_t len;
} Record;

static uint64_t seed;

/* A number below another one, by xorshift64*. */
static uint32_t any(uint32_t below) {
    seed ^= seed >> 12, seed ^= seed << 25, seed ^= seed >> 27;
    return below ? (uint32_t)((seed * 0x2545F4914F6CDD1DULL) >> 33) % below : 0;
}

static void word(Record *r, uint32_t w) {
    w = htonl(w);
    memcpy(r->bytes + r->len, &w, 4);
    r->len += 4;
}

static void opaque(Record *r, const void *bytes, uint32_t len) {
    word(r, len);
    memset(r->bytes + r->len, 0, (len + 3u) & ~3u);
    memcpy(r->bytes + r->len, bytes, len);
    r->len += (len + 3u) & ~3u;
}
