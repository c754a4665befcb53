// What a load can show at most: no MQTT server, but a relay that reads what comes and writes the same bytes on, as one thread over epoll, in pieces of at most
// 64 KiB, a read and a write each. usage: relay PORT. A connection's first packet is answered with CONNACK, a first SUBSCRIBE with SUBACK: who subscribed
// gets from then on all bytes that others send behind their CONNECT. For loads of QoS 0 whose packets are shorter than 128 bytes, 64 connections at once,
// and subscribers that read; it checks nothing else.
#include <arpa/inet.h>
#include <netinet/tcp.h>
#include <stdio.h>
#include <stdlib.h>
#include <string.h>
#include <sys/epoll.h>
#include <unistd.h>

enum { MOST = 64, PIECE = 65536 };
static struct { int socket, joined, hears; } peers[MOST];
static unsigned char piece[PIECE];

static void die(const char *what) {
    fprintf(stderr, "relay: %s\n", what);
    exit(1);
}

static void put(int s, const void *bytes, size_t len) {
    const char *p = bytes;
    while (len > 0) {
        ssize_t n = write(s, p, len);
        if (n <= 0) return;
        p += n;
        len -= (size_t)n;
    }
}

static void come(int listener, int poll) {
    int s = accept(listener, NULL, NULL), one = 1, i = 0;
    if (s < 0) die("no connection came");
    setsockopt(s, IPPROTO_TCP, TCP_NODELAY, &one, sizeof one);
    while (i < MOST && peers[i].socket > 0) i++;
    if (i == MOST) die("too many connections");
    peers[i].socket = s, peers[i].joined = peers[i].hears = 0;
    struct epoll_event e = {.events = EPOLLIN, .data.u32 = (unsigned)i};
    epoll_ctl(poll, EPOLL_CTL_ADD, s, &e);
}

// CONNECT and SUBSCRIBE come alone: who sends them waits for the answer
static void hear(int i) {
    static const unsigned char hello[] = {0x20, 2, 0, 0};
    ssize_t n = read(peers[i].socket, piece, PIECE);
    if (n <= 0) {
        close(peers[i].socket);
        peers[i].socket = 0;
    } else if (!peers[i].joined) {
        peers[i].joined = 1;
        put(peers[i].socket, hello, sizeof hello);
    } else if (piece[0] == 0x82) {
        unsigned char granted[] = {0x90, 3, piece[2], piece[3], 0};
        peers[i].hears = 1;
        put(peers[i].socket, granted, sizeof granted);
    } else {
        for (int k = 0; k < MOST; k++) if (peers[k].socket > 0 && peers[k].hears) put(peers[k].socket, piece, (size_t)n);
    }
}

int main(int argc, char **argv) {
    if (argc != 2) die("usage: relay PORT");
    struct sockaddr_in a = {.sin_family = AF_INET, .sin_port = htons((unsigned short)atoi(argv[1])), .sin_addr.s_addr = htonl(INADDR_LOOPBACK)};
    int listener = socket(AF_INET, SOCK_STREAM, 0), one = 1, poll = epoll_create1(0);
    setsockopt(listener, SOL_SOCKET, SO_REUSEADDR, &one, sizeof one);
    if (bind(listener, (struct sockaddr *)&a, sizeof a) != 0 || listen(listener, MOST) != 0) die("the port is taken");
    struct epoll_event e = {.events = EPOLLIN, .data.u32 = MOST}, ready[MOST];
    epoll_ctl(poll, EPOLL_CTL_ADD, listener, &e);
    for (;;) {
        int n = epoll_wait(poll, ready, MOST, -1);
        for (int i = 0; i < n; i++) {
            if (ready[i].data.u32 == MOST) come(listener, poll);
            else hear((int)ready[i].data.u32);
        }
    }
}
