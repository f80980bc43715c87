/* A client that mounts a path, sets the times of its root by the server's clock, and makes a file that stays:
 *   touch PORT FROM PATH NAME
 * FROM is the address of this machine from which it comes, of 127.0.0.0/8. NAME has at most 8 letters. It calls as user 0.
 * It reports what isn't so, with status 1: MNT that is refused has status 3. Where the times that SETATTR sets are more than
 * a second before the call or after its reply, by this machine's clock, they are wrong. */
#include <arpa/inet.h>
#include <netinet/in.h>
#include <stdint.h>
#include <stdio.h>
#include <stdlib.h>
#include <string.h>
#include <sys/socket.h>
#include <time.h>
#include <unistd.h>

static int peer;
static uint32_t call[256], reply[256];
static int at;

static void fail(int status, const char *what) {
    fprintf(stderr, "touch: %s\n", what);
    exit(status);
}

static void put(uint32_t word) { call[at++] = htonl(word); }

static void put_bytes(const char *bytes, uint32_t length) {
    put(length);
    memset(call + at, 0, 4 * ((length + 3) / 4));
    memcpy(call + at, bytes, length);
    at += (int)((length + 3) / 4);
}

/* Begins a call by user 0. */
static void begin(uint32_t program, uint32_t procedure) {
    static uint32_t xid;
    uint32_t head[] = {0, ++xid, 0, 2, program, 3, procedure, 1, 20, 0, 0, 0, 0, 0, 0, 0};
    at = 0;
    for (unsigned i = 0; i < sizeof head / sizeof *head; i++) put(head[i]);
}

/* Makes the call, and answers how many words its result has after the status, which stands first. */
static int perform(void) {
    uint32_t mark;
    call[0] = htonl(0x80000000u | (uint32_t)(4 * at - 4));
    if (send(peer, call, (size_t)(4 * at), MSG_NOSIGNAL) != 4 * at) fail(1, "a call can't be sent");
    if (recv(peer, &mark, 4, MSG_WAITALL) != 4) fail(1, "no reply comes");
    ssize_t length = (ssize_t)(ntohl(mark) & 0x7fffffff);
    if (length < 28 || length > (ssize_t)sizeof reply || recv(peer, reply, (size_t)length, MSG_WAITALL) != length) fail(1, "no such reply");
    return (int)length / 4 - 7;
}

static uint32_t result(int word) { return ntohl(reply[6 + word]); }

int main(int count, char **words) {
    if (count != 5 || strlen(words[4]) > 8) fail(2, "words are PORT FROM PATH NAME");
    struct sockaddr_in from = {.sin_family = AF_INET}, to = {.sin_family = AF_INET, .sin_port = htons((unsigned short)atoi(words[1]))};
    to.sin_addr.s_addr = htonl(INADDR_LOOPBACK);
    peer = socket(AF_INET, SOCK_STREAM, 0);
    if (inet_pton(AF_INET, words[2], &from.sin_addr) != 1 || bind(peer, (struct sockaddr *)&from, sizeof from) != 0) fail(1, "no such address");
    if (connect(peer, (struct sockaddr *)&to, sizeof to) != 0) fail(1, "no connection");

    begin(100005, 1);
    put_bytes(words[3], (uint32_t)strlen(words[3]));
    int length = perform();
    if (result(0) != 0) fail(3, "MNT is refused");
    if (length < 7 || result(1) != 24) fail(1, "MNT has no such handle");
    uint32_t handle[6];
    memcpy(handle, reply + 8, sizeof handle);

    /* SETATTR: both times by the server's clock, without a guard. */
    begin(100003, 2);
    put_bytes((char *)handle, 24);
    uint32_t sets[] = {0, 0, 0, 0, 1, 1, 0};
    for (unsigned i = 0; i < sizeof sets / sizeof *sets; i++) put(sets[i]);
    time_t before = time(NULL);
    length = perform();
    time_t after = time(NULL);
    /* The attributes before the call, and those after it, which end with atime, mtime and ctime. */
    if (result(0) != 0 || length < 29 || result(1) != 1 || result(8) != 1) fail(1, "SETATTR is refused");
    for (int word = 24; word <= 28; word += 2)
        if ((time_t)result(word) < before - 1 || (time_t)result(word) > after + 1) fail(1, "a time is not that of the clock");

    /* CREATE: UNCHECKED, with the mode 0644. */
    begin(100003, 8);
    put_bytes((char *)handle, 24);
    put_bytes(words[4], (uint32_t)strlen(words[4]));
    uint32_t made[] = {0, 1, 0644, 0, 0, 0, 0, 0};
    for (unsigned i = 0; i < sizeof made / sizeof *made; i++) put(made[i]);
    perform();
    if (result(0) != 0) fail(1, "CREATE is refused");
    close(peer);
    return 0;
}
