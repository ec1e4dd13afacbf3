/* Clients and a plain server for bench/speed/serve, in C.
   serve plain PORT SECONDS: serves up to eight clients on 127.0.0.1, with sockets that do not
   block and a poll of 10 ms at most: a connection that waits is taken, each client that is ready
   is read once up to 4,096 octets, and each answer is written at once. To each TPKT it answers
   fixed octets by its place: those of a connection, of an association, and then of an identify.
   serve load PORT CLIENTS SECONDS: connects so many clients, opens their associations, and then
   each sends an identify and waits for its answer, again and again; prints how many answers came
   in a second. */
#include <arpa/inet.h>
#include <errno.h>
#include <fcntl.h>
#include <netinet/in.h>
#include <netinet/tcp.h>
#include <poll.h>
#include <stdio.h>
#include <stdlib.h>
#include <string.h>
#include <sys/socket.h>
#include <time.h>
#include <unistd.h>

enum { CLIENTS = 8, PIECE = 4096, ROOM = 1 << 18 };
typedef unsigned char octet;
struct text { octet at[512]; size_t length; };
struct peer { int socket; size_t kept, done, queued; octet frame[ROOM], queue[ROOM]; };

static struct text asks[3], answers[3];
static struct peer peers[CLIENTS];

static void fail(const char *why) { perror(why), exit(1); }

static double seconds(void) {
    struct timespec t;
    clock_gettime(CLOCK_MONOTONIC, &t);
    return (double)t.tv_sec + (double)t.tv_nsec / 1e9;
}

/* Three questions and their answers, in hexadecimal digits, from standard input. */
static void read_texts(void) {
    char line[2048];
    for (int i = 0; i < 6; i++) {
        if (!fgets(line, sizeof line, stdin)) fail("standard input");
        struct text *t = i % 2 ? &answers[i / 2] : &asks[i / 2];
        for (char *p = line; p[0] > ' ' && p[1] > ' '; p += 2) {
            unsigned value;
            sscanf(p, "%2x", &value);
            t->at[t->length++] = (octet)value;
        }
    }
}

static struct sockaddr_in address(int port) {
    struct sockaddr_in at = {.sin_family = AF_INET, .sin_port = htons((unsigned short)port)};
    at.sin_addr.s_addr = htonl(INADDR_LOOPBACK);
    return at;
}

static void drop(struct peer *p) {
    close(p->socket);
    p->socket = -1, p->kept = p->done = p->queued = 0;
}

/* Answers each whole TPKT of what came. */
static void answer(struct peer *p) {
    size_t at = 0;
    while (p->kept - at >= 4) {
        size_t length = (size_t)p->frame[at + 2] << 8 | p->frame[at + 3];
        if (p->kept - at < length) break;
        const struct text *t = &answers[p->done < 2 ? p->done : 2];
        if (p->queued + t->length > ROOM) { drop(p); return; }
        memcpy(p->queue + p->queued, t->at, t->length), p->queued += t->length;
        p->done++, at += length;
    }
    memmove(p->frame, p->frame + at, p->kept - at), p->kept -= at;
}

/* What waits for a client is offered to it once. */
static void offer(struct peer *p) {
    if (p->socket < 0 || !p->queued) return;
    ssize_t n = write(p->socket, p->queue, p->queued);
    if (n > 0) memmove(p->queue, p->queue + n, p->queued -= (size_t)n);
    else if (n < 0 && errno != EAGAIN && errno != EINTR) drop(p);
}

/* A client is read once, and answered. */
static void hear(struct peer *p) {
    ssize_t n = read(p->socket, p->frame + p->kept, PIECE);
    if (n > 0) p->kept += (size_t)n, answer(p), offer(p);
    else if (n == 0 || (errno != EAGAIN && errno != EINTR)) drop(p);
}

/* A connection that waits is taken, if there is a place for it. */
static void take(int listener) {
    int one = 1, i, s;
    for (i = 0; i < CLIENTS && peers[i].socket >= 0; i++) {}
    if (i == CLIENTS || (s = accept(listener, NULL, NULL)) < 0) return;
    fcntl(s, F_SETFL, O_NONBLOCK), setsockopt(s, IPPROTO_TCP, TCP_NODELAY, &one, sizeof one);
    peers[i].socket = s;
}

static void plain(int port, double lasts) {
    int one = 1, listener = socket(AF_INET, SOCK_STREAM, 0);
    struct sockaddr_in at = address(port);
    setsockopt(listener, SOL_SOCKET, SO_REUSEADDR, &one, sizeof one);
    if (bind(listener, (struct sockaddr *)&at, sizeof at) || listen(listener, 128)) fail("listen");
    fcntl(listener, F_SETFL, O_NONBLOCK);
    for (int i = 0; i < CLIENTS; i++) peers[i].socket = -1;
    for (double stop = seconds() + lasts; seconds() < stop;) {
        struct pollfd polls[CLIENTS + 1] = {{.fd = listener, .events = POLLIN}};
        for (int i = 0; i < CLIENTS; i++) {
            short events = peers[i].queued ? POLLIN | POLLOUT : POLLIN;
            polls[i + 1] = (struct pollfd){.fd = peers[i].socket, .events = events};
        }
        if (poll(polls, CLIENTS + 1, 10) < 0 && errno != EINTR) fail("poll");
        if (polls[0].revents) take(listener);
        for (int i = 0; i < CLIENTS; i++) {
            if (polls[i + 1].revents & POLLOUT) offer(&peers[i]);
            if (polls[i + 1].revents & (POLLIN | POLLHUP | POLLERR)) hear(&peers[i]);
        }
    }
}

static void send_all(int s, const struct text *t) {
    for (size_t done = 0; done < t->length;) {
        ssize_t n = write(s, t->at + done, t->length - done);
        if (n <= 0) fail("write");
        done += (size_t)n;
    }
}

static void expect(int s, const struct text *t) {
    octet room[512];
    for (size_t done = 0; done < t->length;) {
        ssize_t n = read(s, room + done, t->length - done);
        if (n <= 0) fail("read");
        done += (size_t)n;
    }
    if (memcmp(room, t->at, t->length)) fprintf(stderr, "another answer came\n"), exit(1);
}

/* The answer to a request for a transport connection has the association's number: only its length
   is looked at. */
static void connect_all(struct pollfd *polls, int port, int count) {
    for (int i = 0; i < count; i++) {
        int one = 1, s = socket(AF_INET, SOCK_STREAM, 0);
        struct sockaddr_in at = address(port);
        if (connect(s, (struct sockaddr *)&at, sizeof at)) fail("connect");
        setsockopt(s, IPPROTO_TCP, TCP_NODELAY, &one, sizeof one);
        octet room[512];
        size_t done = 0;
        send_all(s, &asks[0]);
        while (done < answers[0].length) {
            ssize_t n = read(s, room, answers[0].length - done);
            if (n <= 0) fail("read");
            done += (size_t)n;
        }
        send_all(s, &asks[1]), expect(s, &answers[1]);
        polls[i] = (struct pollfd){.fd = s, .events = POLLIN};
    }
}

static void load(int port, int count, double lasts) {
    struct pollfd polls[CLIENTS];
    long done = 0;
    connect_all(polls, port, count);
    double begun = seconds(), stop = begun + lasts;
    for (int i = 0; i < count; i++) send_all(polls[i].fd, &asks[2]);
    while (seconds() < stop) {
        if (poll(polls, (nfds_t)count, 1000) < 0) fail("poll");
        for (int i = 0; i < count; i++) {
            if (!(polls[i].revents & POLLIN)) continue;
            expect(polls[i].fd, &answers[2]), done++;
            send_all(polls[i].fd, &asks[2]);
        }
    }
    printf("%.0f\n", (double)done / (seconds() - begun));
}

int main(int count, char **words) {
    read_texts();
    if (count == 4 && !strcmp(words[1], "plain"))
        plain(atoi(words[2]), atof(words[3]));
    else if (count == 5 && !strcmp(words[1], "load"))
        load(atoi(words[2]), atoi(words[3]), atof(words[4]));
    else
        return 2;
    return 0;
}
