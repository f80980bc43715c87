/* Answers each SIZE bytes by REPLY bytes, for any number of clients, over epoll: what a server of calls of these sizes costs that
 * does nothing else: echo SIZE REPLY [SIZE REPLY]. With a second size, a client's calls have the one and the other in turn. It
 * prints its port. */
#include "listening.h"
#include <errno.h>
#include <unistd.h>

enum { PEERS = 8192, PIECE = 65536, BATCH = 524288 };

typedef struct {
    size_t in, pending; /* bytes that came of the next call, and of replies that are to go out */
    int turn;           /* which size the next call has */
} Client;

static Client all[PEERS];
static unsigned char piece[PIECE], batch[BATCH];
static size_t size[2] = {44, 44}, reply[2] = {28, 28};

/* Counts the calls that these bytes end. */
static void take(Client *c, size_t got) {
    for (c->in += got; c->in >= size[c->turn]; c->turn = !c->turn) {
        c->in -= size[c->turn];
        c->pending += reply[c->turn];
    }
}

/* Sends what is pending. Whether all of it went out. */
static int send_pending(int peer, Client *c) {
    while (c->pending > 0) {
        ssize_t put = send(peer, batch, c->pending < BATCH ? c->pending : BATCH, MSG_NOSIGNAL);
        if (put <= 0) return 0;
        c->pending -= (size_t)put;
    }
    return 1;
}

static void begin(int peer) { all[peer] = (Client){0}; }

static void turn(int peer) {
    Client *c = &all[peer];
    for (ssize_t got = PIECE; send_pending(peer, c) && got == PIECE; take(c, (size_t)got)) {
        got = recv(peer, piece, PIECE, 0);
        if (got < 0 && errno == EAGAIN) return;
        if (got <= 0) {
            close(peer);
            return;
        }
    }
}

int main(int count, char **w) {
    for (int i = 0; count > 2 && i < 2; i++) {
        int at = count > 4 ? 1 + 2 * i : 1;
        size[i] = strtoul(w[at], NULL, 10), reply[i] = strtoul(w[at + 1], NULL, 10);
    }
    serve_all(begin, turn);
}
