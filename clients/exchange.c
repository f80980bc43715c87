/* Exchanges bytes with a server over TCP, by lines of standard input:
 *   open K            a connection of the number K
 *   send K N HEX..    N times these bytes, by one write where the socket takes them
 *   bytes K HEX..     these bytes, one by one
 *   both K L HEX..    these bytes on two connections, one by one in turn
 *   flood K N HEX.. = HEX..  N times these bytes, and nothing is read until the socket takes no more
 *                     for half a second, as it has to; then N times the bytes after = come
 *   want K N HEX..    N times these bytes come next, and no others before them
 *   half K            ends this side; the other may still send
 *   end K             nothing more comes, and the other side ends
 *   close K, reset K  closes the connection, as usual or by a reset
 *   quiet K MILLIS    nothing comes for so long
 *   rest MILLIS       waits
 * It reports the first line that isn't so, with status 1. */
#include <arpa/inet.h>
#include <netinet/in.h>
#include <netinet/tcp.h>
#include <poll.h>
#include <stdio.h>
#include <stdlib.h>
#include <string.h>
#include <sys/socket.h>
#include <unistd.h>

enum { PEERS = 64, LINE = 1 << 16 };

static int peers[PEERS];
static unsigned char bytes[LINE], came[LINE], replied[LINE];

static int wrong(int line, const char *what) {
    fprintf(stderr, "line %d: %s\n", line, what);
    exit(1);
}

/* The bytes that hexadecimal words say. */
static int read_hex(const char *text) {
    int length = 0, used;
    unsigned byte;
    while (sscanf(text, " %2x%n", &byte, &used) == 1) {
        bytes[length++] = (unsigned char)byte;
        text += used;
    }
    return length;
}

static void put(int peer, const unsigned char *from, int length, int line) {
    for (int at = 0, n; at < length; at += n)
        if ((n = (int)send(peer, from + at, (size_t)(length - at), MSG_NOSIGNAL)) <= 0)
            wrong(line, "it can't be sent");
}

static void want(int peer, int length, int line) {
    for (int at = 0, n; at < length; at += n)
        if ((n = (int)recv(peer, came + at, (size_t)(length - at), 0)) <= 0)
            wrong(line, "fewer bytes come");
    if (memcmp(came, bytes, (size_t)length) != 0) {
        for (int at = 0; at < length; at++) fprintf(stderr, "%02x", came[at]);
        wrong(line, ": other bytes come");
    }
}

/* Sends the bytes N times, and takes the replies only once the other side has stopped to read. */
static void flood(int peer, long n, int length, const unsigned char *reply, int reply_length, int line) {
    long sent = 0, got = 0, total = n * length, all = n * reply_length;
    for (int reading = 0; got < all;) {
        struct pollfd p = {.fd = peer, .events = (short)((sent < total ? POLLOUT : 0) | (reading ? POLLIN : 0))};
        if (sent == total && !reading) wrong(line, "it goes on reading");
        if (poll(&p, 1, reading ? 20000 : 500) == 0) {
            if (reading) wrong(line, "nothing comes");
            reading = 1;
        }
        if (p.revents & POLLOUT) {
            ssize_t put = send(peer, bytes + sent % length, (size_t)(length - sent % length), MSG_NOSIGNAL | MSG_DONTWAIT);
            if (put > 0) sent += put;
        }
        if (p.revents & (POLLIN | POLLERR | POLLHUP)) {
            ssize_t some = recv(peer, came, LINE, 0);
            if (some <= 0) wrong(line, "fewer bytes come");
            for (ssize_t i = 0; i < some; i++, got++)
                if (came[i] != reply[got % reply_length]) wrong(line, "other bytes come");
        }
    }
}

static int open_peer(int port, int line) {
    struct sockaddr_in to = {.sin_family = AF_INET, .sin_port = htons((unsigned short)port)};
    struct timeval limit = {.tv_sec = 20};
    int peer = socket(AF_INET, SOCK_STREAM, 0), yes = 1;
    to.sin_addr.s_addr = htonl(INADDR_LOOPBACK);
    if (peer < 0 || connect(peer, (struct sockaddr *)&to, sizeof to) != 0) wrong(line, "no connection");
    setsockopt(peer, IPPROTO_TCP, TCP_NODELAY, &yes, sizeof yes);
    setsockopt(peer, SOL_SOCKET, SO_RCVTIMEO, &limit, sizeof limit);
    return peer;
}

int main(int count, char **words) {
    static char text[LINE * 2];
    char verb[16];
    int port = count > 1 ? atoi(words[1]) : 0;
    for (int line = 1; fgets(text, sizeof text, stdin); line++) {
        int k = 0, n = 1, used = 0;
        if (text[0] == '#' || sscanf(text, "%15s %d%n", verb, &k, &used) < 2) continue;
        if (strcmp(verb, "rest") == 0) {
            usleep((useconds_t)k * 1000);
            continue;
        }
        if (k < 0 || k >= PEERS) wrong(line, "no such number");
        int both = strcmp(verb, "both") == 0, floods = strcmp(verb, "flood") == 0;
        int times = both || floods || strcmp(verb, "send") == 0 || strcmp(verb, "want") == 0 || strcmp(verb, "quiet") == 0;
        if (times) {
            int more = 0;
            sscanf(text + used, "%d%n", &n, &more);
            used += more;
        }
        int reply_length = 0;
        char *reply = floods ? strchr(text, '=') : NULL;
        if (reply) {
            reply_length = read_hex(reply + 1);
            memcpy(replied, bytes, (size_t)reply_length);
        }
        int length = read_hex(text + used);
        if (floods && (length == 0 || reply_length == 0)) wrong(line, "no bytes");
        if (both && (n < 0 || n >= PEERS)) wrong(line, "no such number");
        struct linger now = {.l_onoff = 1, .l_linger = 0};
        if (strcmp(verb, "open") == 0) peers[k] = open_peer(port, line);
        else if (strcmp(verb, "send") == 0) for (int i = 0; i < n; i++) put(peers[k], bytes, length, line);
        else if (strcmp(verb, "bytes") == 0) for (int i = 0; i < length; i++) put(peers[k], bytes + i, 1, line);
        else if (both) for (int i = 0; i < length; i++) put(peers[k], bytes + i, 1, line), put(peers[n], bytes + i, 1, line);
        else if (floods) flood(peers[k], n, length, replied, reply_length, line);
        else if (strcmp(verb, "want") == 0) for (int i = 0; i < n; i++) want(peers[k], length, line);
        else if (strcmp(verb, "quiet") == 0) {
            struct pollfd peer = {.fd = peers[k], .events = POLLIN};
            if (poll(&peer, 1, n) != 0) wrong(line, "something comes");
        } else if (strcmp(verb, "half") == 0) shutdown(peers[k], SHUT_WR);
        else if (strcmp(verb, "close") == 0) close(peers[k]);
        else if (strcmp(verb, "end") == 0) {
            if (recv(peers[k], came, 1, 0) != 0) wrong(line, "it doesn't end");
            close(peers[k]);
        } else if (strcmp(verb, "reset") == 0) {
            setsockopt(peers[k], SOL_SOCKET, SO_LINGER, &now, sizeof now);
            close(peers[k]);
        } else wrong(line, "no such word");
    }
    return 0;
}
