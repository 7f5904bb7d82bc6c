/* Makes one call after another on one connection, for so many milliseconds, and prints how many round trips a second there
 * were: client PORT MODE CALL MILLISECONDS. In mode `giop` a reply is read by the size in its head, in mode `echo` it has
 * as many octets as the request. */
#include <arpa/inet.h>
#include <netinet/in.h>
#include <netinet/tcp.h>
#include <stdio.h>
#include <stdlib.h>
#include <string.h>
#include <sys/socket.h>
#include <time.h>
#include <unistd.h>

static unsigned char request[70000], reply[70000];

static void word(unsigned char *to, unsigned n) {
    to[0] = n >> 24;
    to[1] = n >> 16;
    to[2] = n >> 8;
    to[3] = n;
}

/* A request of GIOP 1.2 in big order to the object `K`, and its length. */
static size_t make_request(const char *operation, size_t body, int octets) {
    size_t name = strlen(operation) + 1, at = 12;
    memcpy(request, "GIOP\1\2\0\0", 8);
    word(request + at, 1), request[at + 4] = 3, at += 8;
    word(request + at, 0), word(request + at + 4, 1), request[at + 8] = 'K', at += 12;
    word(request + at, name), memcpy(request + at + 4, operation, name), at += 4 + name;
    at = (at + 3) / 4 * 4, word(request + at, 0), at += 4;
    if (body > 0) {
        at = (at + 7) / 8 * 8;
        if (octets) {
            word(request + at, body), at += 4;
            for (size_t i = 0; i < body; i++) request[at + i] = i % 251;
        }
        at += body;
    }
    word(request + 8, at - 12);
    return at;
}

static int transfer(int socket, unsigned char *octets, size_t n, int out) {
    while (n > 0) {
        ssize_t k = out ? send(socket, octets, n, 0) : recv(socket, octets, n, 0);
        if (k <= 0) return 0;
        octets += k, n -= k;
    }
    return 1;
}

static int round_trip(int socket, size_t n, int giop) {
    if (!transfer(socket, request, n, 1)) return 0;
    if (!giop) return transfer(socket, reply, n, 0);
    if (!transfer(socket, reply, 12, 0)) return 0;
    unsigned size = reply[8] << 24 | reply[9] << 16 | reply[10] << 8 | reply[11];
    if (reply[7] != 1 || size > sizeof reply - 12) return 0;
    /* a reply without an exception */
    return transfer(socket, reply + 12, size, 0) && memcmp(reply + 16, "\0\0\0\0", 4) == 0;
}

static double now(void) {
    struct timespec t;
    clock_gettime(CLOCK_MONOTONIC, &t);
    return t.tv_sec + t.tv_nsec / 1e9;
}

int main(int count, char **words) {
    if (count != 5) return 2;
    int giop = strcmp(words[2], "giop") == 0, octets = strcmp(words[3], "octets") == 0;
    size_t n = make_request(words[3], octets ? 65536 : strcmp(words[3], "_set_n") == 0 ? 4 : 0, octets);
    struct sockaddr_in there = {.sin_family = AF_INET, .sin_port = htons(atoi(words[1]))};
    there.sin_addr.s_addr = htonl(INADDR_LOOPBACK);
    int s = socket(AF_INET, SOCK_STREAM, 0), on = 1;
    for (int tries = 0; connect(s, (struct sockaddr *)&there, sizeof there) != 0; tries++) {
        if (tries == 100) return 3;
        close(s), usleep(50000), s = socket(AF_INET, SOCK_STREAM, 0);
    }
    setsockopt(s, IPPROTO_TCP, TCP_NODELAY, &on, sizeof on);
    double begin = now(), end = begin + atoi(words[4]) / 1e3;
    long trips = 0;
    while (now() < end) {
        if (!round_trip(s, n, giop)) return 1;
        trips++;
    }
    printf("%.0f\n", trips / (now() - begin));
    return 0;
}
