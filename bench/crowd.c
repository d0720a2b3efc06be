// Many subscribers of one relay (NIP-01 over RFC 6455), for bench/hall.py and tests/hall.py.
//
//     crowd PORT SUBSCRIBERS [WAIT]
//
// Connects so many clients to 127.0.0.1, each of which sends one REQ for the events of kind 1, and prints `ready SECONDS` once all have
// got their EOSE. Then another client sends each line of standard input as a text, and it prints `got COUNT P50 P99 LAST`: how many of
// the clients were sent something within ten seconds, and after how many milliseconds half of these, 99 % of them and all of them
// were. It ends with standard input.
//
// The clients read as soon as something comes, and so share the processors with the relay. With WAIT they do nothing for so many
// milliseconds, as if they were on other machines, and then tell when each had something at its socket, as the system notes it
// (SO_TIMESTAMPNS of socket(7)).
#include <errno.h>
#include <fcntl.h>
#include <stdio.h>
#include <stdlib.h>
#include <string.h>
#include <sys/epoll.h>
#include <sys/resource.h>
#include <sys/socket.h>
#include <unistd.h>

#include "share.h"

// A text as a client's frame under the mask 0.
static int framed(unsigned char *into, const char *text) {
    int size = (int)strlen(text), head = 2;
    into[0] = 0x81;
    if (size < 126) {
        into[1] = 0x80 | size;
    } else {
        into[1] = 0x80 | 126;
        into[2] = size >> 8;
        into[3] = size & 255;
        head = 4;
    }
    memset(into + head, 0, 4);
    memcpy(into + head + 4, text, size);
    return size + head + 4;
}

// Receives until these words have come; of what came before them only the last is kept.
static void receive(int stream, char *buffer, const char *words) {
    int got = 0;
    for (;;) {
        int more = (int)recv(stream, buffer + got, MOST - 1 - got, 0);
        if (more <= 0) stop(words);
        got += more;
        buffer[got] = 0;
        for (int k = 0; k < got; k++) if (!buffer[k]) buffer[k] = ' ';
        if (strstr(buffer, words)) return;
        if (got > 2048) memmove(buffer, buffer + got - 64, 64), got = 64;
    }
}

static int count, *streams, had;
static double *times;
static char *seen;

// A client has received something at this time, if it is more than a ping.
static void note(int client, double at, double from) {
    char buffer[MOST];
    int got = received(streams[client], buffer, &at);
    if (got == 0) exit(1);
    if (got > 8 && !seen[client]) {
        seen[client] = 1;
        times[had++] = (at - from) * 1e3;
    }
}

// The clients read as something comes.
static void read_at_once(int poll, double from) {
    struct epoll_event events[1024];
    while (had < count && noted() - from < 10) {
        int ready = epoll_wait(poll, events, 1024, 100);
        double at = noted();
        for (int k = 0; k < ready; k++) note((int)events[k].data.u32, at, from);
    }
}

// The clients read so many milliseconds later.
static void read_later(int wait, double from) {
    while (had < count && noted() - from < 10) {
        usleep(wait * 1000);
        for (int i = 0; i < count; i++) if (!seen[i]) note(i, from, from);
    }
}

int main(int argc, char **argv) {
    if (argc != 3 && argc != 4) return 2;
    int port = atoi(argv[1]), wait = argc == 4 ? atoi(argv[3]) : 0;
    count = atoi(argv[2]);
    struct rlimit room = {count + 64, count + 64};
    if (setrlimit(RLIMIT_NOFILE, &room) < 0) stop("setrlimit");
    streams = calloc(count, sizeof *streams);
    times = calloc(count, sizeof *times);
    seen = calloc(count, 1);
    int poll = epoll_create1(0);
    double start = now();
    char buffer[MOST];
    for (int i = 0; i < count; i++) streams[i] = joined(port);
    // The head, and then the EOSE.
    for (int i = 0; i < count; i++) {
        receive(streams[i], buffer, "\r\n\r\n");
        if (strncmp(buffer, "HTTP/1.1 101", 12) != 0) return 1;
        unsigned char frame[128];
        int size = framed(frame, "[\"REQ\",\"a\",{\"kinds\":[1],\"limit\":1}]");
        if (send(streams[i], frame, size, 0) != size) stop("send");
    }
    for (int i = 0; i < count; i++) {
        receive(streams[i], buffer, "EOSE");
        struct epoll_event event = {.events = EPOLLIN, .data.u32 = i};
        fcntl(streams[i], F_SETFL, O_NONBLOCK);
        if (!wait) epoll_ctl(poll, EPOLL_CTL_ADD, streams[i], &event);
        if (wait && setsockopt(streams[i], SOL_SOCKET, SO_TIMESTAMPNS, &(int){1}, sizeof(int)) < 0) stop("setsockopt");
    }
    printf("ready %.3f\n", now() - start);
    fflush(stdout);
    int giver = joined(port);
    if (recv(giver, buffer, sizeof buffer, 0) <= 0) stop("handshake");
    static char line[60000];
    static unsigned char frame[60016];
    while (fgets(line, sizeof line, stdin)) {
        line[strcspn(line, "\n")] = 0;
        int size = framed(frame, line);
        memset(seen, 0, count);
        had = 0;
        double from = noted();
        if (send(giver, frame, size, 0) != size) stop("send");
        if (wait) read_later(wait, from);
        else read_at_once(poll, from);
        qsort(times, had, sizeof *times, wide);
        printf("got %d %.2f %.2f %.2f\n", had, had ? times[had / 2] : 0, had ? times[had * 99 / 100] : 0, had ? times[had - 1] : 0);
        fflush(stdout);
    }
    return 0;
}
