/* Sends calls that a server over bench/tree and one more volume denies, each on a connection of its own, for so many seconds:
 * denied PORT SECONDS. The call is a GETATTR of file 6, the root of that volume, which isn't exported here. It prints how many
 * were answered by the status 13, and how many connections ended in place of it. The key in the handle is that of NFS3D_KEY. */
#include <arpa/inet.h>
#include <netinet/in.h>
#include <stdint.h>
#include <stdio.h>
#include <stdlib.h>
#include <string.h>
#include <sys/socket.h>
#include <sys/time.h>
#include <time.h>
#include <unistd.h>
#include "../../clients/key.h"

static void fail(const char *what) {
    fprintf(stderr, "denied: %s\n", what);
    exit(1);
}

static double now(void) {
    struct timespec t;
    clock_gettime(CLOCK_MONOTONIC, &t);
    return (double)t.tv_sec + (double)t.tv_nsec / 1e9;
}

int main(int count, char **w) {
    if (count < 3) fail("denied PORT SECONDS");
    uint32_t key[2], reply[8];
    read_key(key);
    uint32_t call[] = {0x80000058, 0, 0, 2, 100003, 3, 1, 1, 20, 0, 0, 9, 9, 0, 0, 0, 24, 0x4e465333, key[0], key[1], 5, 0, 6};
    struct sockaddr_in to = {.sin_family = AF_INET, .sin_port = htons((unsigned short)atoi(w[1])), .sin_addr.s_addr = htonl(INADDR_LOOPBACK)};
    double until = now() + atof(w[2]);
    unsigned long replied = 0, ended = 0;
    for (uint32_t xid = 1; now() < until; xid++) {
        double left = until - now() + 0.001;
        struct timeval limit = {.tv_sec = (time_t)left, .tv_usec = (suseconds_t)((left - (double)(time_t)left) * 1e6)};
        int peer = socket(AF_INET, SOCK_STREAM, 0);
        if (peer < 0 || connect(peer, (struct sockaddr *)&to, sizeof to) != 0) fail("no connection");
        setsockopt(peer, SOL_SOCKET, SO_RCVTIMEO, &limit, sizeof limit);
        uint32_t sent[sizeof call / 4];
        for (size_t i = 0; i < sizeof call / 4; i++) sent[i] = htonl(i == 1 ? xid : call[i]);
        /* Where it ended before it took the call, the read below says so. */
        send(peer, sent, sizeof sent, MSG_NOSIGNAL);
        ssize_t got = recv(peer, reply, sizeof reply, MSG_WAITALL);
        if (got == (ssize_t)sizeof reply) {
            if (ntohl(reply[1]) != xid || ntohl(reply[7]) != 13) fail("another reply");
            replied++;
        } else if (now() < until) ended++;
        close(peer);
    }
    printf("replied=%lu ended=%lu\n", replied, ended);
    return 0;
}
