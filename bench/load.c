/* Load over TCP for rqm, beanstalkd and Redis, made by connections of which each has one transaction at a time. bench/peers.py
 * builds and runs it.
 *
 *     load rqm|beanstalkd|redis|redis-multi PORT send|recv CONNECTIONS TRANSACTIONS [BODY] [SENDERS] [STRIDE]
 *
 * A transaction is, with rqm, Begin, Send or Receive, Commit, written at once and answered when it is durable; with beanstalkd
 * put, or reserve and delete; with redis RPUSH or LPOP; with redis-multi MULTI, RPUSH or LPOP, EXEC, written at once. Connection i
 * sends for sender (i mod SENDERS) * STRIDE. It prints transactions a second and the latencies at 50, 99 and 100 per cent. A
 * send that is refused is counted and made again. It ends by itself after 60 seconds. */
#define _GNU_SOURCE
#include <arpa/inet.h>
#include <errno.h>
#include <fcntl.h>
#include <netinet/tcp.h>
#include <stdint.h>
#include <stdio.h>
#include <stdlib.h>
#include <string.h>
#include <sys/epoll.h>
#include <sys/socket.h>
#include <time.h>
#include <unistd.h>

enum { RQM, BEANSTALKD, REDIS };
struct conn { int fd; unsigned sender; int stage, busy; size_t have; double began; unsigned char in[4096]; };

static int proto, multi, sending, body = 100; static unsigned stride = 1;
static long wanted, started, ended, refused, empty;
static double *took;
static char fill[4096];

static double now(void) { struct timespec t; clock_gettime(CLOCK_MONOTONIC, &t); return t.tv_sec + t.tv_nsec * 1e-9; }
static void die(const char *what) { fprintf(stderr, "load: %s: %s\n", what, strerror(errno)); exit(1); }

static void put(struct conn *c, const void *b, size_t n) {
    const char *p = b;
    while (n) {
        ssize_t k = send(c->fd, p, n, MSG_NOSIGNAL);
        if (k < 0) { if (errno == EAGAIN || errno == EINTR) continue; die("send"); }
        p += k; n -= k;
    }
}

static size_t frame(unsigned char *o, int kind, const void *fields, size_t n) {
    o[0] = (n + 1) >> 8; o[1] = (n + 1) & 255; o[2] = kind; memcpy(o + 3, fields, n); return n + 3;
}

static void begin(struct conn *c, int again) {
    unsigned char o[2048]; size_t n = 0;
    if (!again) { if (started >= wanted) { c->busy = 0; return; } started++; c->began = now(); }
    c->busy = 1; c->stage = 0;
    if (proto == RQM) {
        n += frame(o + n, 1, "", 0);
        if (sending) {
            unsigned char f[600]; uint32_t s = htonl(c->sender);
            memcpy(f, &s, 4); memset(f + 4, 0, 8); memcpy(f + 12, fill, body);
            n += frame(o + n, 2, f, 12 + body);
        } else n += frame(o + n, 3, "", 0);
        n += frame(o + n, 6, "", 0);
    } else if (proto == BEANSTALKD) {
        n = sending ? sprintf((char *)o, "put 0 0 60 %d\r\n%.*s\r\n", body, body, fill) : sprintf((char *)o, "reserve-with-timeout 0\r\n");
    } else {
        if (multi) n = sprintf((char *)o, "*1\r\n$5\r\nMULTI\r\n");
        n += sending ? sprintf((char *)o + n, "*3\r\n$5\r\nRPUSH\r\n$1\r\nq\r\n$%d\r\n%.*s\r\n", body, body, fill) : sprintf((char *)o + n, "*2\r\n$4\r\nLPOP\r\n$1\r\nq\r\n");
        if (multi) n += sprintf((char *)o + n, "*1\r\n$4\r\nEXEC\r\n");
    }
    put(c, o, n);
}

static void done(struct conn *c) { took[ended++] = now() - c->began; begin(c, 0); }

/* Eats whole answers at the front of what is in; answers how many bytes went. */
static size_t answer(struct conn *c) {
    if (proto == RQM) {
        static const int kinds[2][3] = {{129, 131, 134}, {129, 130, 134}};
        if (c->have < 3) return 0;
        size_t n = (c->in[0] << 8 | c->in[1]) + 2;
        if (c->have < n) return 0;
        int kind = c->in[2], want = kinds[sending][c->stage];
        if (c->stage == 1 && !sending && kind == 132) { empty++; kind = want; }
        else if (c->stage == 1 && kind == 255) { refused++; c->stage = 9; kind = want; }
        if (c->stage == 9) { c->stage = 10; return n; }           /* the Commit of nothing is still to come */
        if (c->stage == 10) { begin(c, 1); return n; }
        if (kind != want) { fprintf(stderr, "load: answer %d where %d was due\n", kind, want); exit(1); }
        if (++c->stage == 3) done(c);
        return n;
    }
    unsigned char *e = memmem(c->in, c->have, "\r\n", 2);
    if (!e) return 0;
    size_t line = e - c->in + 2;
    if (proto == BEANSTALKD) {
        if (sending || c->stage == 1) {
            if (memcmp(c->in, "INSERTED", 8) && memcmp(c->in, "DELETED", 7)) { fprintf(stderr, "load: %.*s\n", (int)line, c->in); exit(1); }
            done(c); return line;
        }
        if (!memcmp(c->in, "TIMED_OUT", 9)) { empty++; done(c); return line; }
        long id; size_t n; if (sscanf((char *)c->in, "RESERVED %ld %zu", &id, &n) != 2) die("reserve");
        if (c->have < line + n + 2) return 0;
        char o[64]; int k = sprintf(o, "delete %ld\r\n", id); c->stage = 1; put(c, o, k);
        return line + n + 2;
    }
    if (multi && (c->in[0] == '+' || c->in[0] == '*')) return line;      /* OK, QUEUED, an array of one */
    if (c->in[0] == ':') { done(c); return line; }
    if (c->in[0] != '$') { fprintf(stderr, "load: %.*s\n", (int)line, c->in); exit(1); }
    long n = atol((char *)c->in + 1);
    if (n < 0) { empty++; done(c); return line; }
    if (c->have < line + n + 2) return 0;
    done(c); return line + n + 2;
}

static int rising(const void *a, const void *b) { double x = *(double *)a, y = *(double *)b; return (x > y) - (x < y); }

int main(int argc, char **argv) {
    if (argc < 6) { fprintf(stderr, "load rqm|beanstalkd|redis|redis-multi PORT send|recv CONNECTIONS TRANSACTIONS [BODY] [SENDERS] [STRIDE]\n"); return 2; }
    proto = argv[1][0] == 'b' ? BEANSTALKD : argv[1][0] == 'r' && argv[1][1] == 'e' ? REDIS : RQM; multi = strstr(argv[1], "multi") != NULL;
    int port = atoi(argv[2]), k = atoi(argv[4]); sending = argv[3][0] == 's'; wanted = atol(argv[5]);
    if (argc > 6) body = atoi(argv[6]);
    unsigned senders = argc > 7 ? atoi(argv[7]) : (unsigned)k;
    if (argc > 8) stride = atoi(argv[8]);
    memset(fill, 'x', sizeof fill); took = malloc(sizeof(double) * (wanted + 1));
    struct conn *cs = calloc(k, sizeof *cs); int ep = epoll_create1(0); double start = now();
    for (int i = 0; i < k; i++) {
        struct sockaddr_in a = {.sin_family = AF_INET, .sin_port = htons(port), .sin_addr.s_addr = htonl(INADDR_LOOPBACK)};
        cs[i].fd = socket(AF_INET, SOCK_STREAM, 0); int one = 1; setsockopt(cs[i].fd, IPPROTO_TCP, TCP_NODELAY, &one, sizeof one);
        if (connect(cs[i].fd, (void *)&a, sizeof a)) die("connect");
        fcntl(cs[i].fd, F_SETFL, O_NONBLOCK); cs[i].sender = (i % senders) * stride;
        struct epoll_event e = {.events = EPOLLIN, .data.ptr = &cs[i]}; epoll_ctl(ep, EPOLL_CTL_ADD, cs[i].fd, &e);
        begin(&cs[i], 0);
    }
    while (ended < wanted && now() - start < 60) {
        struct epoll_event es[64]; int n = epoll_wait(ep, es, 64, 1000);
        for (int i = 0; i < n; i++) {
            struct conn *c = es[i].data.ptr;
            ssize_t g = recv(c->fd, c->in + c->have, sizeof c->in - c->have, 0);
            if (g == 0) { fprintf(stderr, "load: the server ended a connection\n"); return 1; }
            if (g < 0) { if (errno == EAGAIN) continue; die("recv"); }
            c->have += g;
            for (size_t used; c->have && (used = answer(c)); ) { c->have -= used; memmove(c->in, c->in + used, c->have); }
        }
    }
    double d = now() - start; qsort(took, ended, sizeof *took, rising);
    if (!ended) { fprintf(stderr, "load: nothing was answered in 60 s\n"); return 1; }
    printf("%s %s %d connections: %.0f /s, p50 %.2f ms, p99 %.2f ms, max %.2f ms, refused %ld, empty %ld, in %.1f s\n", argv[1], argv[3], k,
           ended / d, took[ended / 2] * 1e3, took[(long)(ended * .99)] * 1e3, took[ended - 1] * 1e3, refused, empty, d);
    return 0;
}
