// A load for an MQTT 3.1.1 server on this machine: PUBS publishers with COUNT messages of 64 bytes each, SUBS subscribers to all of
// them. usage: load PORT PUBS SUBS QOS COUNT WINDOW RATE JOINED [DEAF]. WINDOW: how many messages of a publisher may be under way (as the first
// subscriber counts). RATE: messages a second of each publisher, 0 for as many as go. JOINED: how many messages a publisher hands to the
// socket in one write, where so many may go; with 1 the load's own calls bound the rate of a fast server. A publisher that may send no
// more looks again some times and then sleeps until the subscriber has read. DEAF: how many more subscribers there are that never read, with the
// least receive buffer that the system gives. Prints: delivered messages a second, and the median and the 99th percentile of the time from send to
// receipt, in microseconds.
// Or: load PORT connects COUNT. COUNT times, by 8 threads: a TCP connection, CONNECT, CONNACK, DISCONNECT, and the server's end of the connection.
// Prints how many of these there were in a second.
// Or: load PORT retained COUNT. COUNT messages of 64 bytes and QoS 1 with RETAIN, to 64 topics in turn, 100 under way at most. Prints how many were
// acknowledged in a second.
// Or: load PORT fill MESSAGES SESSIONS FILTERS. So many retained messages of 1,024 bytes, each on a topic of its own, and so many kept sessions, each with so
// many filters. Or: load PORT wait [NAME]. Tries for a minute to be let in; with NAME its kept session has to be there.
// With LOAD_LOGIN=USER:PASSWORD in the environment each CONNECT says these. With LOAD_KEPT=1 the sessions of subscribers are kept, up to their end.
#include <arpa/inet.h>
#include <netinet/tcp.h>
#include <pthread.h>
#include <stdatomic.h>
#include <stdint.h>
#include <stdio.h>
#include <stdlib.h>
#include <string.h>
#include <time.h>
#include <unistd.h>

enum { MOST = 64 };
static int port, pubs, subs, qos, count, window, rate, joined, kept;
static pthread_mutex_t door = PTHREAD_MUTEX_INITIALIZER;
static pthread_cond_t heard = PTHREAD_COND_INITIALIZER;
static atomic_int sleepers;
static atomic_long seen[64], delivered, ready;
static uint32_t *times;
static atomic_long timed;

static uint64_t now(void) {
    struct timespec t;
    clock_gettime(CLOCK_MONOTONIC, &t);
    return (uint64_t)t.tv_sec * 1000000000u + (uint64_t)t.tv_nsec;
}

static void die(const char *what) {
    fprintf(stderr, "load: %s\n", what);
    exit(1);
}

static void put(int s, const void *bytes, size_t len) {
    const char *p = bytes;
    while (len > 0) {
        ssize_t n = write(s, p, len);
        if (n <= 0) die("the server closed a connection");
        p += n;
        len -= (size_t)n;
    }
}

static void get(int s, void *bytes, size_t len) {
    char *p = bytes;
    while (len > 0) {
        ssize_t n = read(s, p, len);
        if (n <= 0) die("the server closed a connection");
        p += n;
        len -= (size_t)n;
    }
}

static int try_to_connect(int room) {
    struct sockaddr_in a = {.sin_family = AF_INET, .sin_port = htons((uint16_t)port)};
    inet_pton(AF_INET, "127.0.0.1", &a.sin_addr);
    int s = socket(AF_INET, SOCK_STREAM, 0), one = 1;
    if (room > 0) setsockopt(s, SOL_SOCKET, SO_RCVBUF, &room, sizeof room);
    if (connect(s, (struct sockaddr *)&a, sizeof a) != 0) {
        close(s);
        return -1;
    }
    setsockopt(s, IPPROTO_TCP, TCP_NODELAY, &one, sizeof one);
    return s;
}

// CONNECT with a client identifier of less than 30 bytes; whether its session was there
static int enter(int s, const char *name, int clean) {
    unsigned char hello[170] = {0x10, 12, 0, 4, 'M', 'Q', 'T', 'T', 4, (unsigned char)(clean ? 2 : 0), 0, 0, 0, (unsigned char)strlen(name)}, answer[4];
    size_t len = 14 + strlen(name);
    memcpy(hello + 14, name, strlen(name));
    const char *login = getenv("LOAD_LOGIN"), *colon = login ? strchr(login, ':') : NULL;
    if (colon) {
        size_t user = (size_t)(colon - login), secret = strlen(colon + 1);
        if (user + secret > 80) die("the login is too long");
        hello[len++] = 0, hello[len++] = (unsigned char)user;
        memcpy(hello + len, login, user), len += user;
        hello[len++] = 0, hello[len++] = (unsigned char)secret;
        memcpy(hello + len, colon + 1, secret), len += secret;
        hello[9] |= 0xc0;
    }
    hello[1] = (unsigned char)(len - 2);
    put(s, hello, len);
    get(s, answer, 4);
    if (answer[0] != 0x20 || answer[3] != 0) die("CONNECT was refused");
    return answer[2];
}

static int join_with(int room) {
    int s = try_to_connect(room);
    if (s < 0) die("nobody listens");
    enter(s, "", 1);
    return s;
}

static int join_server(void) { return join_with(0); }

// the session of a subscriber, which is kept where the environment says so
static int join_kept(long me, int clean) {
    char name[30];
    snprintf(name, sizeof name, "kept%ld", me);
    int s = try_to_connect(0);
    if (s < 0) die("nobody listens");
    if (enter(s, name, clean) && !clean) die("a session of an earlier load was there");
    return s;
}

static void subscribe_to_all(int s) {
    unsigned char ask[] = {0x82, 6, 0, 1, 0, 1, '#', (unsigned char)qos}, answer[5];
    put(s, ask, sizeof ask);
    get(s, answer, 5);
}

// connects, and goes in order, so often
static void *comer(void *arg) {
    static const unsigned char bye[] = {0xe0, 0};
    char end;
    for (long left = (long)arg; left > 0; left--) {
        int s = join_server();
        put(s, bye, sizeof bye);
        while (read(s, &end, 1) > 0) {}
        close(s);
    }
    return NULL;
}

static int connects(long all) {
    pthread_t t[8];
    uint64_t start = now();
    for (long i = 0; i < 8; i++) pthread_create(&t[i], NULL, comer, (void *)(all / 8));
    for (int i = 0; i < 8; i++) pthread_join(t[i], NULL);
    printf("%.0f\n", (double)(all / 8 * 8) * 1e9 / (double)(now() - start));
    return 0;
}

// reads acknowledgements until fewer than so many messages are without one
static long acknowledged(int s, long sent, long acked, long most) {
    static unsigned char acks[4096];
    static size_t odd = 0;
    while (sent - acked >= most) {
        ssize_t n = read(s, acks, sizeof acks);
        if (n <= 0) die("the server closed a publisher");
        odd += (size_t)n;
        acked += (long)(odd / 4);
        odd %= 4;
    }
    return acked;
}

// puts the length before a packet whose body stands at its byte 3: where the packet begins then
static size_t with_length(unsigned char *p, size_t body) {
    if (body < 128) {
        p[1] = p[0], p[2] = (unsigned char)body;
        return 1;
    }
    p[1] = (unsigned char)(body % 128 | 128), p[2] = (unsigned char)(body / 128);
    return 0;
}

// publishes with RETAIN, QoS 1 and 100 under way: the message I to the topic I modulo TOPICS
static void put_retained(int s, long all, long topics, size_t load) {
    unsigned char p[1200];
    char text[60];
    long acked = 0;
    for (long sent = 0; sent < all;) {
        long id = sent % 60000 + 1;
        snprintf(text, sizeof text, "%010ldkept/%05ld", sent, sent % topics);
        p[0] = 0x33, p[3] = 0, p[4] = 10;
        memcpy(p + 5, text + 10, 10);
        p[15] = (unsigned char)(id >> 8), p[16] = (unsigned char)id;
        memset(p + 17, 'x', load);
        memcpy(p + 17, text, 10);
        size_t begin = with_length(p, 14 + load);
        put(s, p + begin, 17 + load - begin);
        sent++;
        acked = acknowledged(s, sent, acked, 100);
    }
    acknowledged(s, all, acked, 1);
}

static int retained(long all) {
    int s = join_server();
    uint64_t start = now();
    put_retained(s, all, 64, 64);
    printf("%.0f\n", (double)all * 1e9 / (double)(now() - start));
    return 0;
}

// a kept session with so many filters, whose client goes in order
static void keep_session(long me, long filters) {
    static const unsigned char bye[] = {0xe0, 0};
    unsigned char ask[3000], answer[200];
    char text[60], end;
    size_t len = 5;
    ask[0] = 0x82, ask[3] = 0, ask[4] = 1;
    for (long f = 0; f < filters; f++) {
        snprintf(text, sizeof text, "of/%05ld/%05ld/+", me, f);
        ask[len] = 0, ask[len + 1] = 16;
        memcpy(ask + len + 2, text, 16);
        ask[len + 18] = 1;
        len += 19;
    }
    snprintf(text, sizeof text, "session%ld", me);
    int s = try_to_connect(0);
    if (s < 0) die("nobody listens");
    enter(s, text, 0);
    size_t begin = with_length(ask, len - 3);
    put(s, ask + begin, len - begin);
    get(s, answer, 4 + (size_t)filters);
    for (long f = 0; f < filters; f++) if (answer[4 + f] != 1) die("a filter wasn't granted");
    put(s, bye, sizeof bye);
    while (read(s, &end, 1) > 0) {}
    close(s);
}

static int fill(long messages, long sessions, long filters) {
    if (filters < 1 || filters > 100) die("1 to 100 filters");
    int s = join_server();
    put_retained(s, messages, messages, 1024);
    close(s);
    for (long i = 0; i < sessions; i++) keep_session(i, filters);
    return 0;
}

static int wait_for_server(const char *name) {
    uint64_t start = now();
    int s;
    while ((s = try_to_connect(0)) < 0) {
        if (now() - start > 60000000000u) die("nobody listens");
        usleep(1000);
    }
    if (!enter(s, name, name[0] == 0) && name[0]) die("the session isn't there");
    return 0;
}

// waits until fewer than WINDOW messages of this publisher are under way; answers how many more may go
static long wait_for_room(long me, long sent) {
    for (int looks = 0; looks < 50; looks++) {
        long room = window - (sent - atomic_load(&seen[me]));
        if (room > 0) return room;
        sched_yield();
    }
    pthread_mutex_lock(&door);
    atomic_fetch_add(&sleepers, 1);
    while (sent - atomic_load(&seen[me]) >= window) pthread_cond_wait(&heard, &door);
    atomic_fetch_sub(&sleepers, 1);
    pthread_mutex_unlock(&door);
    return window - (sent - atomic_load(&seen[me]));
}

static void *publisher(void *arg) {
    long me = (long)arg;
    int s = join_server();
    unsigned char packets[80 * MOST], acks[4096];
    atomic_fetch_add(&ready, 1);
    while (atomic_load(&ready) < pubs + subs) usleep(1000);
    uint64_t start = now();
    size_t head = 6u + (qos ? 2 : 0), size = head + 64;
    long acked = 0;
    size_t odd = 0;
    for (long sent = 0; sent < count;) {
        if (rate > 0) {
            uint64_t due = start + (uint64_t)sent * (1000000000u / (uint64_t)rate);
            uint64_t t = now();
            if (due > t) usleep((useconds_t)((due - t) / 1000));
        }
        long more = wait_for_room(me, sent);
        if (more > joined) more = joined;
        if (more > count - sent) more = count - sent;
        for (long i = 0; i < more; i++) {
            unsigned char *p = packets + (size_t)i * size;
            long id = (sent + i) % 60000 + 1;
            uint64_t t = now();
            p[0] = qos ? 0x32 : 0x30;
            p[1] = (unsigned char)(size - 2);
            p[2] = 0, p[3] = 2, p[4] = 'b', p[5] = (unsigned char)('A' + me);
            if (qos) p[6] = (unsigned char)(id >> 8), p[7] = (unsigned char)id;
            memset(p + head, 'x', 64);
            memcpy(p + head, &t, 8);
        }
        put(s, packets, (size_t)more * size);
        sent += more;
        while (qos && (sent - acked >= window || (sent == count && acked < count))) {
            ssize_t n = read(s, acks, sizeof acks);
            if (n <= 0) die("the server closed a publisher");
            odd += (size_t)n;
            acked += (long)(odd / 4);
            odd %= 4;
        }
    }
    while (atomic_load(&delivered) < (long)pubs * subs * count) usleep(500);
    close(s);
    return NULL;
}

static void *subscriber(void *arg) {
    long me = (long)arg;
    int s = kept ? join_kept(me, 0) : join_server();
    subscribe_to_all(s);
    atomic_fetch_add(&ready, 1);
    unsigned char *held = malloc(1 << 16), acks[1 << 14];
    size_t have = 0;
    for (long left = (long)pubs * count; left > 0;) {
        ssize_t n = read(s, held + have, (1 << 16) - have);
        if (n <= 0) die("the server closed a subscriber");
        have += (size_t)n;
        size_t at = 0, acked = 0;
        uint64_t t = now();
        while (have - at >= 2 && have - at >= 2u + held[at + 1]) {
            unsigned char *p = held + at;
            size_t head = 6u + ((p[0] & 6) ? 2 : 0);
            uint64_t sent;
            memcpy(&sent, p + head, 8);
            long k = atomic_fetch_add(&timed, 1);
            if (k < 4000000) times[k] = (uint32_t)((t - sent) / 100);
            if (p[0] & 6) {
                unsigned char ack[4] = {0x40, 2, p[6], p[7]};
                memcpy(acks + acked, ack, 4);
                acked += 4;
            }
            if (me == 0) atomic_fetch_add(&seen[p[5] - 'A'], 1);
            atomic_fetch_add(&delivered, 1);
            left--;
            at += 2u + p[1];
        }
        memmove(held, held + at, have - at);
        have -= at;
        if (me == 0 && atomic_load(&sleepers) > 0) {
            pthread_mutex_lock(&door);
            pthread_cond_broadcast(&heard);
            pthread_mutex_unlock(&door);
        }
        if (acked) put(s, acks, acked);
    }
    close(s);
    if (kept) close(join_kept(me, 1));
    return NULL;
}

static int up(const void *a, const void *b) {
    uint32_t x = *(const uint32_t *)a, y = *(const uint32_t *)b;
    return (x > y) - (x < y);
}

int main(int argc, char **argv) {
    if (argc == 4 && strcmp(argv[2], "connects") == 0) {
        port = atoi(argv[1]);
        return connects(atol(argv[3]));
    }
    if (argc == 4 && strcmp(argv[2], "retained") == 0) {
        port = atoi(argv[1]);
        return retained(atol(argv[3]));
    }
    if (argc == 6 && strcmp(argv[2], "fill") == 0) {
        port = atoi(argv[1]);
        return fill(atol(argv[3]), atol(argv[4]), atol(argv[5]));
    }
    if ((argc == 3 || argc == 4) && strcmp(argv[2], "wait") == 0) {
        port = atoi(argv[1]);
        return wait_for_server(argc == 4 ? argv[3] : "");
    }
    kept = getenv("LOAD_KEPT") != NULL;
    if (argc != 9 && argc != 10) die("usage: load PORT PUBS SUBS QOS COUNT WINDOW RATE JOINED [DEAF]");
    port = atoi(argv[1]), pubs = atoi(argv[2]), subs = atoi(argv[3]), qos = atoi(argv[4]), count = atoi(argv[5]);
    window = atoi(argv[6]), rate = atoi(argv[7]), joined = atoi(argv[8]);
    if (pubs < 1 || pubs > 50 || subs < 1 || subs > 200) die("1 to 50 publishers, 1 to 200 subscribers");
    if (joined < 1 || joined > MOST) die("1 to 64 joined");
    for (int left = argc == 10 ? atoi(argv[9]) : 0; left > 0; left--) subscribe_to_all(join_with(1));
    times = calloc(4000000, 4);
    pthread_t t[256];
    for (long i = 0; i < subs; i++) pthread_create(&t[i], NULL, subscriber, (void *)i);
    for (long i = 0; i < pubs; i++) pthread_create(&t[subs + i], NULL, publisher, (void *)i);
    while (atomic_load(&ready) < pubs + subs) usleep(200);
    uint64_t start = now();
    for (int i = 0; i < subs + pubs; i++) pthread_join(t[i], NULL);
    double took = (double)(now() - start) / 1e9;
    long k = atomic_load(&timed) < 4000000 ? atomic_load(&timed) : 4000000;
    qsort(times, (size_t)k, 4, up);
    printf("%.0f %.1f %.1f\n", (double)atomic_load(&delivered) / took, times[k / 2] / 10.0, times[k * 99 / 100] / 10.0);
    return 0;
}
