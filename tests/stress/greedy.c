/* Clients that make a server over bench/tree keep as much as it keeps of a client: greedy PORT CLIENTS. Each sends two records
 * of nearly and of quite the largest size, which are no calls, and then many READs of 128 KiB, whose replies it never takes: so
 * the server has room for a record, replies that it has pending, and what came after their calls. They stay for two seconds. The key
 * in their handles is that of NFS3D_KEY (clients/key.h). */
#include <arpa/inet.h>
#include <netinet/in.h>
#include <poll.h>
#include <stdint.h>
#include <stdio.h>
#include <stdlib.h>
#include <string.h>
#include <sys/socket.h>
#include <unistd.h>
#include "../../clients/key.h"

enum { LARGEST = 262144, LONGEST_READ = 131072, READS = 200 };

static uint32_t key[2];

static void fail(const char *what) {
    fprintf(stderr, "greedy: %s\n", what);
    exit(1);
}

static size_t put(unsigned char *to, size_t at, uint32_t w) {
    w = htonl(w);
    memcpy(to + at, &w, 4);
    return at + 4;
}

/* A READ of 128 KiB of the file 5. */
static size_t put_read(unsigned char *to, size_t at) {
    const uint32_t words[] = {0x80000000u | 100, 7, 0, 2, 100003, 3, 6, 1, 20, 0, 0, 9, 9, 0, 0, 0,
        24, 0x4e465333, key[0], key[1], 4, 0, 5, 0, 0, LONGEST_READ};
    for (size_t i = 0; i < sizeof words / sizeof *words; i++) at = put(to, at, words[i]);
    return at;
}

int main(int argc, char **argv) {
    if (argc < 3) fail("greedy PORT CLIENTS");
    read_key(key);
    int clients = atoi(argv[2]);
    static unsigned char bytes[2 * LARGEST + 8 + READS * 104];
    memset(bytes, 0xff, sizeof bytes);
    size_t len = put(bytes, 0, 0x80000000u | (LARGEST - 4));
    len = put(bytes, len + LARGEST - 4, 0x80000000u | LARGEST) + LARGEST;
    for (int i = 0; i < READS; i++) len = put_read(bytes, len);
    struct sockaddr_in at = {.sin_family = AF_INET, .sin_port = htons((unsigned short)atoi(argv[1])), .sin_addr.s_addr = htonl(INADDR_LOOPBACK)};
    for (int i = 0; i < clients; i++) {
        int peer = socket(AF_INET, SOCK_STREAM, 0);
        int room = 4096;
        if (peer < 0) fail("no socket");
        setsockopt(peer, SOL_SOCKET, SO_RCVBUF, &room, sizeof room);
        if (connect(peer, (struct sockaddr *)&at, sizeof at) != 0) fail("the server can't be reached");
        for (size_t sent = 0; sent < len;) {
            ssize_t n = send(peer, bytes + sent, len - sent, MSG_NOSIGNAL);
            if (n <= 0) fail("the connection ended");
            sent += (size_t)n;
        }
    }
    poll(NULL, 0, 2000);
    return 0;
}
