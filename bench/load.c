// Clients of a relay that cost little themselves (NIP-01 over RFC 6455), for bench/relay.py.
//
//     load put PORT CLIENTS FILE     publishes the events of the file's lines by so many clients, each of which has at most 64 events
//                                    that aren't answered yet
//     load ask PORT FILE             asks for the filter of each line, one after the other, and waits for its EOSE
//
// It prints `COUNT SECONDS`: how many events were taken, or came, and how long that took behind the handshakes. The connections stay
// until standard input has ended.
#define _GNU_SOURCE
#include <netinet/tcp.h>
#include <pthread.h>
#include <stdint.h>
#include <unistd.h>

#include "share.h"

enum { WINDOW = 64, ROOM = 1 << 22 };

// What is sent: frames one behind the other, and where each of them begins.
struct frames {
    unsigned char *bytes;
    size_t *starts, count;
};

struct client {
    int stream;
    struct frames frames;
    unsigned char *room;
    size_t from, to;
    long came;
};

static pthread_barrier_t ready;

// Puts a text in two parts around a line, as a client's frame under the mask 0.
static size_t framed(unsigned char *into, const char *before, const char *line, size_t size, const char *behind) {
    size_t head = 2, all = strlen(before) + size + strlen(behind);
    into[0] = 0x81;
    if (all < 126) {
        into[1] = 0x80 | (unsigned char)all;
    } else if (all < 65536) {
        into[1] = 0x80 | 126;
        into[2] = (unsigned char)(all >> 8), into[3] = (unsigned char)all;
        head = 4;
    } else {
        into[1] = 0x80 | 127;
        for (int k = 0; k < 8; k++) into[2 + k] = (unsigned char)((uint64_t)all >> (56 - 8 * k));
        head = 10;
    }
    memset(into + head, 0, 4);
    head += 4;
    memcpy(into + head, before, strlen(before));
    memcpy(into + head + strlen(before), line, size);
    memcpy(into + head + strlen(before) + size, behind, strlen(behind));
    return head + all;
}

static char *read_all(const char *path, size_t *size) {
    FILE *file = fopen(path, "rb");
    if (!file) stop(path);
    fseek(file, 0, SEEK_END);
    *size = (size_t)ftell(file);
    rewind(file);
    char *text = malloc(*size + 1);
    if (!text || fread(text, 1, *size, file) != *size) stop(path);
    fclose(file);
    return text;
}

// The frames of each client, of lines that are dealt out in turn.
static void deal(struct client *clients, int count, const char *path, const char *before, const char *behind) {
    size_t size, lines = 0;
    char *text = read_all(path, &size);
    for (size_t k = 0; k < size; k++) lines += text[k] == '\n';
    for (int i = 0; i < count; i++) {
        clients[i].frames.bytes = malloc(size + 64 * (lines + 1));
        clients[i].frames.starts = calloc(lines + 2, sizeof(size_t));
        if (!clients[i].frames.bytes || !clients[i].frames.starts) stop("memory");
    }
    size_t number = 0;
    for (char *line = text, *end; (end = memchr(line, '\n', size - (size_t)(line - text))); line = end + 1, number++) {
        struct frames *frames = &clients[number % (size_t)count].frames;
        size_t at = frames->starts[frames->count];
        frames->starts[++frames->count] = at + framed(frames->bytes + at, before, line, (size_t)(end - line), behind);
    }
    free(text);
}

static void send_all(struct client *client, size_t from, size_t to) {
    const unsigned char *bytes = client->frames.bytes;
    for (size_t at = client->frames.starts[from], end = client->frames.starts[to]; at < end;) {
        ssize_t sent = send(client->stream, bytes + at, end - at, MSG_NOSIGNAL);
        if (sent <= 0) stop("send");
        at += (size_t)sent;
    }
}

// Receives more, behind what is left.
static void refill(struct client *client) {
    memmove(client->room, client->room + client->from, client->to - client->from);
    client->to -= client->from;
    client->from = 0;
    ssize_t got = recv(client->stream, client->room + client->to, ROOM - client->to, 0);
    if (got <= 0) stop("receive");
    client->to += (size_t)got;
}

// The next text of the relay, and how long it is. It is there until the next call.
static const char *next(struct client *client, size_t *size) {
    for (;;) {
        const unsigned char *at = client->room + client->from;
        size_t left = client->to - client->from, head = 2, len = 0;
        if (left >= 2) {
            len = at[1] & 127;
            size_t more = len == 126 ? 2 : len == 127 ? 8 : 0;
            if (more) {
                head += more, len = 0;
                for (size_t k = 0; k < more && head <= left; k++) len = len << 8 | at[2 + k];
            }
            if (head <= left && head + len <= left) {
                client->from += head + len;
                if ((at[0] & 15) != 1) continue;
                *size = len;
                return (const char *)at + head;
            }
        }
        refill(client);
    }
}

static void begin(struct client *client, int port) {
    client->stream = joined(port);
    client->room = malloc(ROOM);
    if (!client->room) stop("memory");
    setsockopt(client->stream, IPPROTO_TCP, TCP_NODELAY, &(int){1}, sizeof(int));
    // Nothing comes behind the relay's head until it is asked for something.
    while (client->to < 4 || memcmp(client->room + client->to - 4, "\r\n\r\n", 4) != 0) refill(client);
    client->from = client->to = 0;
}

static void *put(void *one) {
    struct client *client = one;
    size_t sent = 0, count = client->frames.count;
    pthread_barrier_wait(&ready);
    for (size_t answered = 0; answered < count; answered++) {
        size_t most = answered + WINDOW < count ? answered + WINDOW : count, size;
        if (most - sent > WINDOW / 2 || sent == answered) {
            send_all(client, sent, most);
            sent = most;
        }
        const char *text = next(client, &size);
        if (!memmem(text, size, ",true,", 6)) stop("an event was refused");
    }
    client->came = (long)count;
    return 0;
}

static void *ask(void *one) {
    struct client *client = one;
    pthread_barrier_wait(&ready);
    for (size_t k = 0; k < client->frames.count; k++) {
        send_all(client, k, k + 1);
        for (;;) {
            size_t size;
            const char *text = next(client, &size);
            if (size > 7 && memcmp(text, "[\"EOSE\"", 7) == 0) break;
            if (size > 8 && memcmp(text, "[\"EVENT\"", 8) == 0) client->came++;
        }
    }
    return 0;
}

int main(int argc, char **argv) {
    int puts = argc == 5 && strcmp(argv[1], "put") == 0;
    if (!puts && !(argc == 4 && strcmp(argv[1], "ask") == 0)) return 2;
    int count = puts ? atoi(argv[3]) : 1;
    struct client *clients = calloc((size_t)count, sizeof *clients);
    pthread_t *threads = calloc((size_t)count, sizeof *threads);
    deal(clients, count, argv[argc - 1], puts ? "[\"EVENT\"," : "[\"REQ\",\"q\",", "]");
    pthread_barrier_init(&ready, 0, (unsigned)count + 1);
    for (int i = 0; i < count; i++) {
        begin(&clients[i], atoi(argv[2]));
        if (pthread_create(&threads[i], 0, puts ? put : ask, &clients[i]) != 0) stop("thread");
    }
    double start = now();
    pthread_barrier_wait(&ready);
    long came = 0;
    for (int i = 0; i < count; i++) {
        pthread_join(threads[i], 0);
        came += clients[i].came;
    }
    printf("%ld %.6f\n", came, now() - start);
    fflush(stdout);
    while (getchar() != EOF) {}
    return 0;
}
