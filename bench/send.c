// The least that it takes to send something to many clients of this machine, for bench/hall.py: no relay, just the system's calls.
//
//     send CLIENTS THREADS [WAIT]
//
// Connects so many clients of a child process, and then sends 340 bytes to each of them, ten times over, by so many threads. It prints
// for each time `HALF LAST`: after how many milliseconds half of the clients had received something, and all. With WAIT the clients
// read so many milliseconds later, and it tells when each had something at its socket, as `crowd.c` does.
#include <fcntl.h>
#include <pthread.h>
#include <stdio.h>
#include <stdlib.h>
#include <string.h>
#include <sys/epoll.h>
#include <sys/resource.h>
#include <sys/socket.h>
#include <unistd.h>

#include "share.h"

enum { TIMES = 10, READY = 1024 };

static int count, threads, wait, *streams;
static char text[340];
static pthread_barrier_t begin, end;

static void *sender(void *number) {
    for (int k = 0; k < TIMES; k++) {
        pthread_barrier_wait(&begin);
        for (int i = (int)(long)number; i < count; i += threads) {
            if (send(streams[i], text, sizeof text, 0) != sizeof text) stop("send");
        }
        pthread_barrier_wait(&end);
    }
    return 0;
}

// The clients read as something comes.
static void read_at_once(int poll, double *times, double from) {
    for (int had = 0; had < count;) {
        struct epoll_event events[READY];
        char buffer[MOST];
        int ready = epoll_wait(poll, events, READY, 100);
        double at = noted();
        for (int k = 0; k < ready; k++) {
            if (recv(events[k].data.fd, buffer, sizeof buffer, 0) > 0) times[had++] = (at - from) * 1e3;
        }
    }
}

// The clients read so many milliseconds later.
static void read_later(const int *clients, double *times, double from) {
    usleep(wait * 1000);
    for (int i = 0; i < count; i++) {
        char buffer[MOST];
        double at = from;
        if (received(clients[i], buffer, &at) <= 0) stop("receive");
        times[i] = (at - from) * 1e3;
    }
}

// The clients: at each time that is read, they wait until all have received something.
static void receive(struct sockaddr_in at, int from, int to) {
    double *times = calloc(count, sizeof *times), start;
    int *clients = calloc(count, sizeof *clients), poll = epoll_create1(0);
    for (int i = 0; i < count; i++) {
        int stream = clients[i] = socket(AF_INET, SOCK_STREAM, 0);
        if (stream < 0 || connect(stream, (struct sockaddr *)&at, sizeof at) < 0) stop("connect");
        if (wait) {
            if (setsockopt(stream, SOL_SOCKET, SO_TIMESTAMPNS, &(int){1}, sizeof(int)) < 0) stop("setsockopt");
            continue;
        }
        fcntl(stream, F_SETFL, O_NONBLOCK);
        struct epoll_event event = {.events = EPOLLIN, .data.fd = stream};
        epoll_ctl(poll, EPOLL_CTL_ADD, stream, &event);
    }
    if (write(to, "r", 1) != 1) stop("write");
    while (read(from, &start, sizeof start) == sizeof start) {
        if (wait) read_later(clients, times, start);
        else read_at_once(poll, times, start);
        qsort(times, count, sizeof *times, wide);
        printf("%.2f %.2f\n", times[count / 2], times[count - 1]);
        fflush(stdout);
        if (write(to, "r", 1) != 1) stop("write");
    }
}

int main(int argc, char **argv) {
    if (argc != 3 && argc != 4) return 2;
    count = atoi(argv[1]), threads = atoi(argv[2]), wait = argc == 4 ? atoi(argv[3]) : 0;
    struct rlimit room = {count + 64, count + 64};
    if (setrlimit(RLIMIT_NOFILE, &room) < 0) stop("setrlimit");
    struct sockaddr_in at = {.sin_family = AF_INET, .sin_addr.s_addr = htonl(INADDR_LOOPBACK)};
    socklen_t size = sizeof at;
    int listener = socket(AF_INET, SOCK_STREAM, 0), times[2], ready[2];
    if (bind(listener, (struct sockaddr *)&at, size) < 0 || listen(listener, 4096) < 0) stop("listen");
    if (getsockname(listener, (struct sockaddr *)&at, &size) < 0 || pipe(times) < 0 || pipe(ready) < 0) stop("pipe");
    if (fork() == 0) {
        close(times[1]);
        receive(at, times[0], ready[1]);
        return 0;
    }
    streams = calloc(count, sizeof *streams);
    for (int i = 0; i < count; i++) {
        if ((streams[i] = accept(listener, 0, 0)) < 0) stop("accept");
    }
    pthread_barrier_init(&begin, 0, threads + 1);
    pthread_barrier_init(&end, 0, threads + 1);
    for (long k = 0; k < threads; k++) {
        pthread_t thread;
        if (pthread_create(&thread, 0, sender, (void *)k) != 0) stop("thread");
    }
    for (int k = 0; k < TIMES; k++) {
        char byte;
        if (read(ready[0], &byte, 1) != 1) stop("read");
        usleep(100000);
        double start = noted();
        if (write(times[1], &start, sizeof start) != sizeof start) stop("write");
        pthread_barrier_wait(&begin);
        pthread_barrier_wait(&end);
    }
    char byte;
    return read(ready[0], &byte, 1) != 1;
}
