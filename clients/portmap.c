// A portmapper for tests: waits at UDP port 111 of 127.0.0.1 for datagrams, writes each as a line, in hexadecimal words and with the
// port that it came from where that is 1024 or above, and answers it. `portmap ANSWER..` gives the answers, one for each datagram:
// yes, no (a boolean), deny (the call is not accepted), short (a reply without its result), silent (none), late (the reply to another
// call first, then yes). It ends after the last. Status 2 where it can't have the port.
#include <arpa/inet.h>
#include <netinet/in.h>
#include <stdint.h>
#include <stdio.h>
#include <string.h>
#include <sys/socket.h>

static void answer(int fd, struct sockaddr_in *to, uint32_t xid, uint32_t state, uint32_t done, size_t words)
{
    // xid, REPLY, MSG_ACCEPTED or MSG_DENIED, a verifier of no bytes, SUCCESS, the boolean
    uint32_t reply[] = {xid, htonl(1), htonl(state), 0, 0, 0, htonl(done)};
    sendto(fd, reply, words * 4, 0, (struct sockaddr *)to, sizeof *to);
}

int main(int argc, char **argv)
{
    int fd = socket(AF_INET, SOCK_DGRAM, 0);
    struct sockaddr_in here = {.sin_family = AF_INET, .sin_port = htons(111), .sin_addr = {htonl(INADDR_LOOPBACK)}};
    if (fd < 0 || bind(fd, (struct sockaddr *)&here, sizeof here) != 0) {
        perror("portmap");
        return 2;
    }
    puts("ready");
    fflush(stdout);
    for (int i = 1; i < argc; i++) {
        uint32_t call[128];
        struct sockaddr_in from;
        socklen_t len = sizeof from;
        ssize_t n = recvfrom(fd, call, sizeof call, 0, (struct sockaddr *)&from, &len);
        if (n < 4)
            return 1;
        // the number of the call is the client's choice
        for (ssize_t word = 1; word < n / 4; word++)
            printf("%08x%s", ntohl(call[word]), word + 1 < n / 4 ? " " : "");
        printf(ntohs(from.sin_port) < 1024 ? "\n" : " from port %d\n", ntohs(from.sin_port));
        fflush(stdout);
        if (strcmp(argv[i], "yes") == 0)
            answer(fd, &from, call[0], 0, 1, 7);
        if (strcmp(argv[i], "no") == 0)
            answer(fd, &from, call[0], 0, 0, 7);
        if (strcmp(argv[i], "deny") == 0)
            answer(fd, &from, call[0], 1, 0, 5);
        if (strcmp(argv[i], "short") == 0)
            answer(fd, &from, call[0], 0, 0, 6);
        if (strcmp(argv[i], "late") == 0) {
            answer(fd, &from, ~call[0], 0, 0, 7);
            answer(fd, &from, call[0], 0, 1, 7);
        }
    }
    return 0;
}
