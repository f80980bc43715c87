/* Loads any NFS version 3 server over TCP, which it mounts first: peer NFS-PORT MOUNT-PORT PATH WORK CLIENTS CALLS, where
 * WORK is make (CREATE and REMOVE in turn) or write64 (WRITEs of 64 KiB, FILE_SYNC). Each client has one call under way. Each
 * reply must have the status 0. It prints the microseconds a call. The caller is user 0. */
#include <arpa/inet.h>
#include <netinet/in.h>
#include <netinet/tcp.h>
#include <stdint.h>
#include <stdio.h>
#include <stdlib.h>
#include <string.h>
#include <sys/socket.h>
#include <sys/wait.h>
#include <time.h>
#include <unistd.h>

enum { MOST = 1 << 18, SIZE = 65536 };

typedef struct {
    unsigned char bytes[64];
    uint32_t size;
} Handle;

static unsigned char out[MOST], in[MOST];
static size_t len;
static int peer;

static void fail(const char *what) {
    fprintf(stderr, "peer: %s\n", what);
    exit(1);
}

static void number(uint32_t n) {
    n = htonl(n);
    memcpy(out + len, &n, 4);
    len += 4;
}

static void opaque(const void *bytes, uint32_t size) {
    number(size);
    memset(out + len + size / 4 * 4, 0, 4);
    memcpy(out + len, bytes, size);
    len += (size + 3) / 4 * 4;
}

static uint32_t at(size_t i) {
    uint32_t n;
    memcpy(&n, in + i, 4);
    return ntohl(n);
}

static void reach(int port) {
    int yes = 1;
    struct sockaddr_in to = {.sin_family = AF_INET, .sin_port = htons((unsigned short)port), .sin_addr.s_addr = htonl(INADDR_LOOPBACK)};
    peer = socket(AF_INET, SOCK_STREAM, 0);
    if (connect(peer, (struct sockaddr *)&to, sizeof to) != 0) fail("no connection");
    setsockopt(peer, IPPROTO_TCP, TCP_NODELAY, &yes, sizeof yes);
}

static void begin(uint32_t program, uint32_t procedure) {
    static uint32_t xid;
    uint32_t head[] = {0, ++xid + ((uint32_t)getpid() << 16), 0, 2, program, 3, procedure, 1, 20, 0, 0, 0, 0, 0, 0, 0};
    len = 0;
    for (size_t i = 0; i < sizeof head / sizeof *head; i++) number(head[i]);
}

static void get(void *to, size_t size) {
    for (size_t i = 0; i < size;) {
        ssize_t n = recv(peer, (char *)to + i, size - i, 0);
        if (n <= 0) fail("the server ended the connection");
        i += (size_t)n;
    }
}

/* Sends the call and takes its reply, whose status is at byte 24. */
static void call(const char *what) {
    uint32_t mark = htonl((uint32_t)(0x80000000u | (len - 4)));
    memcpy(out, &mark, 4);
    for (size_t i = 0; i < len;) {
        ssize_t n = send(peer, out + i, len - i, MSG_NOSIGNAL);
        if (n <= 0) fail("it can't be sent");
        i += (size_t)n;
    }
    get(&mark, 4);
    mark = ntohl(mark) & 0x7fffffff;
    if (mark > sizeof in) fail("a long reply");
    get(in, mark);
    if (at(4) != 1 || at(8) != 0 || at(20) != 0 || at(24) != 0) fail(what);
}

static Handle handle_at(size_t i) {
    Handle handle = {.size = at(i)};
    if (handle.size > 64) fail("a handle of more than 64 bytes");
    memcpy(handle.bytes, in + i + 4, handle.size);
    return handle;
}

static void begin_on(uint32_t procedure, Handle handle) {
    begin(100003, procedure);
    opaque(handle.bytes, handle.size);
}

static Handle create(Handle dir, const char *name) {
    begin_on(8, dir);
    opaque(name, (uint32_t)strlen(name));
    uint32_t settings[] = {0, 1, 0644, 0, 0, 0, 0, 0};
    for (size_t i = 0; i < sizeof settings / sizeof *settings; i++) number(settings[i]);
    call("CREATE");
    if (at(28) != 1) fail("CREATE returned no handle");
    return handle_at(32);
}

static void do_remove(Handle dir, const char *name) {
    begin_on(12, dir);
    opaque(name, (uint32_t)strlen(name));
    call("REMOVE");
}

static void do_write(Handle file) {
    static unsigned char data[SIZE];
    begin_on(7, file);
    uint32_t range[] = {0, 0, SIZE, 2};
    for (size_t i = 0; i < sizeof range / sizeof *range; i++) number(range[i]);
    opaque(data, SIZE);
    call("WRITE");
}

static void client(int port, Handle dir, const char *work, int calls) {
    char name[32];
    snprintf(name, sizeof name, "peer-%d", getpid());
    reach(port);
    if (strcmp(work, "make") == 0) {
        for (int i = 0; i < calls; i += 2) create(dir, name), do_remove(dir, name);
        return;
    }
    Handle file = create(dir, name);
    for (int i = 0; i < calls; i++) do_write(file);
    do_remove(dir, name);
}

int main(int count, char **w) {
    if (count != 7) fail("peer NFS-PORT MOUNT-PORT PATH WORK CLIENTS CALLS");
    int clients = atoi(w[5]), calls = atoi(w[6]), status, failed = 0;
    struct timespec from, to;
    reach(atoi(w[2]));
    begin(100005, 1);
    opaque(w[3], (uint32_t)strlen(w[3]));
    call("MNT");
    Handle dir = handle_at(28);
    clock_gettime(CLOCK_MONOTONIC, &from);
    for (int i = 0; i < clients; i++)
        if (fork() == 0) {
            client(atoi(w[1]), dir, w[4], calls);
            return 0;
        }
    for (int i = 0; i < clients; i++) {
        wait(&status);
        failed |= status != 0;
    }
    clock_gettime(CLOCK_MONOTONIC, &to);
    if (failed) fail("a client failed");
    double took = (double)(to.tv_sec - from.tv_sec) * 1e6 + (double)(to.tv_nsec - from.tv_nsec) / 1e3;
    printf("%.2f\n", took / ((double)clients * calls));
    return 0;
}
