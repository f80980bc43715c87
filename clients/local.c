/* A client of a Unix socket that sends whatever it is given:
 *   local PATH
 * It sends its standard input, as much of it as the server takes, and prints what comes until the server closes the connection.
 * Its status is 1 where it can't connect. */
#include <signal.h>
#include <stdio.h>
#include <string.h>
#include <sys/socket.h>
#include <sys/un.h>
#include <unistd.h>

/* Writes all of some bytes; whether they were taken. */
static int write_all(int to, const char *bytes, ssize_t length) {
    while (length > 0) {
        ssize_t taken = write(to, bytes, (size_t)length);
        if (taken <= 0) return 0;
        bytes += taken;
        length -= taken;
    }
    return 1;
}

/* Copies until an end or a fault of one of both. */
static void copy(int from, int to) {
    char bytes[65536];
    ssize_t length;
    while ((length = read(from, bytes, sizeof bytes)) > 0 && write_all(to, bytes, length)) {
    }
}

int main(int argc, char **argv) {
    struct sockaddr_un address = {.sun_family = AF_UNIX};
    if (argc != 2 || strlen(argv[1]) >= sizeof address.sun_path) return 2;
    strcpy(address.sun_path, argv[1]);
    signal(SIGPIPE, SIG_IGN);
    int server = socket(AF_UNIX, SOCK_STREAM, 0);
    if (server < 0 || connect(server, (struct sockaddr *)&address, sizeof address) != 0) {
        perror("local");
        return 1;
    }
    copy(0, server);
    copy(server, 1);
    return 0;
}
