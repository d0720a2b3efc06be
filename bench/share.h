// What the programs of this folder share: the time in seconds, connections, what a socket has received and when, and the end of a program
// whose system call failed.
#include <arpa/inet.h>
#include <stdio.h>
#include <stdlib.h>
#include <string.h>
#include <sys/socket.h>
#include <sys/uio.h>
#include <time.h>

enum { MOST = 4096 };

static inline double now(void) {
    struct timespec t;
    clock_gettime(CLOCK_MONOTONIC, &t);
    return t.tv_sec + t.tv_nsec / 1e9;
}

static inline void stop(const char *what) {
    perror(what);
    exit(1);
}

// The time by the clock by which the system notes when something came.
static inline double noted(void) {
    struct timespec t;
    clock_gettime(CLOCK_REALTIME, &t);
    return t.tv_sec + t.tv_nsec / 1e9;
}

// Receives what has come, and when the last of it came to the socket, where that was asked for.
static inline int received(int stream, char *buffer, double *at) {
    union {
        struct cmsghdr head;
        char room[CMSG_SPACE(sizeof(struct timespec))];
    } beside;
    struct iovec into = {buffer, MOST};
    struct msghdr message = {.msg_iov = &into, .msg_iovlen = 1, .msg_control = &beside, .msg_controllen = sizeof beside};
    int got = (int)recvmsg(stream, &message, 0);
    for (struct cmsghdr *part = CMSG_FIRSTHDR(&message); part; part = CMSG_NXTHDR(&message, part)) {
        if (part->cmsg_level == SOL_SOCKET && part->cmsg_type == SCM_TIMESTAMPNS) {
            struct timespec t;
            memcpy(&t, CMSG_DATA(part), sizeof t);
            *at = t.tv_sec + t.tv_nsec / 1e9;
        }
    }
    return got;
}

// A connection to a relay of this machine, which has asked for a WebSocket and hasn't read the answer.
static inline int joined(int port) {
    struct sockaddr_in at = {.sin_family = AF_INET, .sin_port = htons(port), .sin_addr.s_addr = htonl(INADDR_LOOPBACK)};
    int stream = socket(AF_INET, SOCK_STREAM, 0);
    if (stream < 0 || connect(stream, (struct sockaddr *)&at, sizeof at) < 0) stop("connect");
    const char *head = "GET / HTTP/1.1\r\nHost: a\r\nConnection: Upgrade\r\nUpgrade: websocket\r\n"
                       "Sec-WebSocket-Version: 13\r\nSec-WebSocket-Key: dGhlIHNhbXBsZSBub25jZQ==\r\n\r\n";
    if (send(stream, head, strlen(head), 0) < 0) stop("send");
    return stream;
}

// The order of times, for qsort.
static inline int wide(const void *a, const void *b) {
    double x = *(const double *)a, y = *(const double *)b;
    return (x > y) - (x < y);
}
