/* A listener on a free port of 127.0.0.1, which it prints, and the turns of its clients. */
#ifndef _GNU_SOURCE
#define _GNU_SOURCE
#endif
#include <arpa/inet.h>
#include <netinet/in.h>
#include <netinet/tcp.h>
#include <stdint.h>
#include <stdio.h>
#include <stdlib.h>
#include <sys/epoll.h>
#include <sys/socket.h>

static int listening(void) {
    struct sockaddr_in at = {.sin_family = AF_INET, .sin_addr.s_addr = htonl(INADDR_LOOPBACK)};
    socklen_t length = sizeof at;
    int listener = socket(AF_INET, SOCK_STREAM | SOCK_NONBLOCK, 0);
    if (bind(listener, (struct sockaddr *)&at, sizeof at) != 0 || listen(listener, 1024) != 0) {
        perror("it can't listen");
        exit(1);
    }
    getsockname(listener, (struct sockaddr *)&at, &length);
    printf("%d\n", ntohs(at.sin_port));
    fflush(stdout);
    return listener;
}

/* Gives each client its turn where something came or goes out, for ever. `begin` comes before a client's first turn. */
__attribute__((unused)) static void serve_all(void (*begin)(int peer), void (*turn)(int peer)) {
    int listener = listening(), poll = epoll_create1(0);
    struct epoll_event e = {.events = EPOLLIN, .data.u32 = 0};
    epoll_ctl(poll, EPOLL_CTL_ADD, listener, &e);
    for (;;) {
        struct epoll_event events[256];
        int n = epoll_wait(poll, events, 256, -1);
        for (int i = 0; i < n; i++) {
            int peer = (int)events[i].data.u32, yes = 1;
            if (peer != 0) {
                turn(peer);
                continue;
            }
            while ((peer = accept4(listener, 0, 0, SOCK_NONBLOCK)) >= 0) {
                setsockopt(peer, IPPROTO_TCP, TCP_NODELAY, &yes, sizeof yes);
                begin(peer);
                e.events = EPOLLIN | EPOLLOUT | EPOLLET, e.data.u32 = (uint32_t)peer;
                epoll_ctl(poll, EPOLL_CTL_ADD, peer, &e);
            }
        }
    }
}
