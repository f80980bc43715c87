/* What calls cost at least that last before they are answered: floor FILE CALL REPLY [CALL REPLY]. It answers each record of CALL
 * bytes by REPLY bytes, both with their record marks, for any number of clients, over epoll. In each round it takes what has come
 * from each client, appends to FILE of each call as many bytes as its entry has, by one write, has them synced by one fdatasync,
 * and then sends the replies. It prints its port, and takes the file away. */
#define _GNU_SOURCE
#include <errno.h>
#include <fcntl.h>
#include <netinet/tcp.h>
#include <stdint.h>
#include <stdio.h>
#include <stdlib.h>
#include <string.h>
#include <sys/epoll.h>
#include <sys/socket.h>
#include <unistd.h>
#include "listening.h"

/* An entry has the call and the reply without their marks, and 24 bytes beside them, with its own mark. */
enum { PEERS = 1024, PIECE = 266240, ENTRIES = 64 << 20, ENTRY = 24 };

typedef struct {
    unsigned char in[PIECE], out[PIECE];
    size_t got, due;
} Client;

static Client *all[PEERS];
static unsigned char entries[ENTRIES], zeros[PIECE];
static size_t len, calls[2], replies[2];
static int file;

static void fail(const char *what) {
    perror(what);
    exit(1);
}

static size_t record(const unsigned char *at) { return 4 + ((size_t)(at[0] & 0x7f) << 24 | (size_t)at[1] << 16 | (size_t)at[2] << 8 | at[3]); }

/* Takes the whole records that have come: their entries and their replies. */
static void take(Client *c) {
    size_t from = 0;
    for (size_t size; c->got - from >= 4 && c->got - from >= (size = record(c->in + from)); from += size) {
        size_t reply = size == calls[0] ? replies[0] : replies[1];
        if (len + ENTRY + size + reply > ENTRIES || c->due + reply > PIECE) fail("floor: too much at once");
        memcpy(entries + len + ENTRY - 8, zeros, reply - 4);
        memcpy(entries + len + ENTRY - 8 + reply - 4, c->in + from + 4, size - 4);
        len += ENTRY + size - 4 + reply - 4;
        memcpy(c->out + c->due, zeros, reply);
        c->due += reply;
    }
    memmove(c->in, c->in + from, c->got -= from);
}

static void send_due(int peer) {
    Client *c = all[peer];
    ssize_t put = c->due > 0 ? send(peer, c->out, c->due, MSG_NOSIGNAL) : 0;
    if (put <= 0) return;
    memmove(c->out, c->out + put, c->due -= (size_t)put);
}

/* What has come from a client. Whether there was something. */
static int receive(int peer) {
    Client *c = all[peer];
    ssize_t got = recv(peer, c->in + c->got, PIECE - c->got, 0);
    if (got < 0 && errno == EAGAIN) return 0;
    if (got <= 0) {
        close(peer), free(c), all[peer] = NULL;
        return 0;
    }
    c->got += (size_t)got;
    take(c);
    return 1;
}

static void accept_all(int listener, int poll) {
    int peer, yes = 1;
    while ((peer = accept4(listener, 0, 0, SOCK_NONBLOCK)) >= 0) {
        struct epoll_event e = {.events = EPOLLIN, .data.u32 = (uint32_t)peer};
        setsockopt(peer, IPPROTO_TCP, TCP_NODELAY, &yes, sizeof yes);
        if (peer >= PEERS || !(all[peer] = calloc(1, sizeof(Client)))) fail("floor: too many clients");
        epoll_ctl(poll, EPOLL_CTL_ADD, peer, &e);
    }
}

int main(int count, char **w) {
    if (count < 4) {
        fprintf(stderr, "usage: floor FILE CALL REPLY [CALL REPLY]\n");
        return 2;
    }
    for (int i = 0; i < 2; i++) {
        int at = count > 5 ? 2 + 2 * i : 2;
        calls[i] = strtoul(w[at], NULL, 10), replies[i] = strtoul(w[at + 1], NULL, 10);
    }
    int listener = listening(), poll = epoll_create1(0);
    struct epoll_event e = {.events = EPOLLIN, .data.u32 = 0};
    if ((file = open(w[1], O_WRONLY | O_CREAT | O_APPEND, 0600)) < 0) fail(w[1]);
    unlink(w[1]);
    epoll_ctl(poll, EPOLL_CTL_ADD, listener, &e);
    for (;;) {
        struct epoll_event events[256];
        int n = epoll_wait(poll, events, 256, -1);
        for (int i = 0; i < n; i++) {
            int peer = (int)events[i].data.u32;
            if (peer == 0) accept_all(listener, poll);
            else if (!receive(peer)) events[i].data.u32 = 0;
        }
        if (len > 0 && (write(file, entries, len) != (ssize_t)len || fdatasync(file) != 0)) fail("floor");
        len = 0;
        for (int i = 0; i < n; i++)
            if (events[i].data.u32 != 0) send_due((int)events[i].data.u32);
    }
}
