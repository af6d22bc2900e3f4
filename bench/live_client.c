/* Plays OpenFlow 1.0 switches to a controller at the loopback address, as fast as it answers. bench/live.py builds and runs it.

   live_client rate PORT SWITCHES IN_FLIGHT REASON PACED SECONDS BEFORE
       Each switch sends PACKET_INs with this reason and a new source address each, so many of them at a time without their FLOW_MOD.
       Where PACED is 1 none is sent before the barrier behind the last FLOW_MOD is answered. Each has BEFORE entries when this begins.
       Prints: additions a second over all, in the first and in the last quarter, and the 50th and 99th of 100 latencies in microseconds.
   live_client joins PORT SWITCHES ADDITIONS SECONDS
       The switches join; prints how many of them have had so many FLOW_MODs, and after how many milliseconds.
   live_client flood PORT COUNT SECONDS
       Switch 1 sends so many PACKET_INs as fast as the socket takes them, while switch 2 sends one at a time. Prints how long the
       socket took, how many FLOW_MODs switch 1 had and after how long, how many switch 2 had meanwhile, and its longest wait.

   Behind its line it keeps the connections until its standard input ends. Barriers, echoes and questions of the controller are answered at once. */
#include <arpa/inet.h>
#include <errno.h>
#include <fcntl.h>
#include <netinet/in.h>
#include <netinet/tcp.h>
#include <poll.h>
#include <stdint.h>
#include <stdio.h>
#include <stdlib.h>
#include <string.h>
#include <sys/socket.h>
#include <time.h>
#include <unistd.h>

enum { MOST_SWITCHES = 256, FRAME = 60, MESSAGE = 18 + FRAME, ROOM = 1 << 18, MOST_IN_FLIGHT = 1024, MOST_LATENCIES = 1 << 22 };

struct link {
    int fd, number, joined;
    uint64_t sent, added;              /* PACKET_INs and FLOW_MODs that add, since the counting began */
    int owes;                          /* whether no barrier came behind the last FLOW_MOD yet */
    double when[MOST_IN_FLIGHT];       /* when the PACKET_INs were sent whose FLOW_MODs are awaited, in their order */
    uint8_t in[ROOM];
    size_t filled;
    uint8_t *out;                      /* what the socket did not take yet: from `begun` to `ended` */
    size_t begun, ended, room;
};

static struct link *links[MOST_SWITCHES];
static int count;
static uint64_t packet_outs;
static uint32_t source;
static int reason = 1;               /* an action (5.4.1) */
static float *latencies;
static size_t latency_count;

static double now(void) {
    struct timespec t;
    clock_gettime(CLOCK_MONOTONIC, &t);
    return t.tv_sec + t.tv_nsec / 1e9;
}

static void fail(const char *what) {
    printf("failed: %s: %s\n", what, strerror(errno));
    exit(1);
}

static void put16(uint8_t *at, unsigned value) { at[0] = value >> 8, at[1] = value; }
static void put32(uint8_t *at, uint32_t value) { put16(at, value >> 16), put16(at + 2, value & 0xffff); }
static unsigned get16(const uint8_t *at) { return at[0] << 8 | at[1]; }

static void flush(struct link *link) {
    while (link->begun < link->ended) {
        ssize_t n = write(link->fd, link->out + link->begun, link->ended - link->begun);
        if (n < 0 && errno == EAGAIN) return;
        if (n < 0 && errno == EINTR) continue;
        if (n < 0) fail("a write");
        link->begun += n;
    }
    link->begun = link->ended = 0;
}

static void queue(struct link *link, const uint8_t *bytes, size_t size) {
    if (link->begun > ROOM) {
        memmove(link->out, link->out + link->begun, link->ended - link->begun);
        link->ended -= link->begun, link->begun = 0;
    }
    if (link->ended + size > link->room) {
        link->room = 2 * (link->ended + size);
        link->out = realloc(link->out, link->room);
        if (!link->out) fail("memory");
    }
    memcpy(link->out + link->ended, bytes, size);
    link->ended += size;
}

/* Queues a message with this body; the xid is that of the request, or 0. */
static void reply(struct link *link, int kind, const uint8_t *request, const uint8_t *body, size_t size) {
    uint8_t bytes[2048] = {1, kind};
    put16(bytes + 2, 8 + size);
    if (request) memcpy(bytes + 4, request + 4, 4);
    if (size) memcpy(bytes + 8, body, size);
    queue(link, bytes, 8 + size);
}

static void packet_in(struct link *link, int port, uint32_t from, uint32_t to) {
    uint8_t bytes[MESSAGE] = {1, 10, 0, MESSAGE};
    put32(bytes + 8, from);            /* a buffer, so that no controller sends the frame back */
    put16(bytes + 12, FRAME);
    put16(bytes + 14, port);
    bytes[16] = reason;
    uint8_t *frame = bytes + 18;
    frame[0] = frame[6] = 2;
    put32(frame + 2, to), put32(frame + 8, from);
    put16(frame + 12, 0x88b5);
    queue(link, bytes, MESSAGE);
}

static void event(struct link *link) {
    link->when[link->sent++ % MOST_IN_FLIGHT] = now();
    packet_in(link, 2, ++source, 0x00ffffff);
}

static void features(struct link *link, const uint8_t *request) {
    uint8_t body[24 + 2 * 48] = {0};
    body[7] = link->number;
    put32(body + 8, 256);
    body[12] = 1;
    put32(body + 16, 0x87), put32(body + 20, 0xfff);
    for (int port = 1; port <= 2; port++) {
        uint8_t *at = body + 24 + 48 * (port - 1);
        put16(at, port);
        at[2] = 2, at[6] = link->number, at[7] = port;
        at[8] = 'p', at[9] = '0' + port;
    }
    reply(link, 6, request, body, sizeof body);
}

static void statistics(struct link *link, const uint8_t *request) {
    uint8_t body[4 + 1056] = {request[8], request[9]};
    unsigned kind = get16(request + 8);
    reply(link, 17, request, body, kind == 0 ? 4 + 1056 : kind == 2 ? 4 + 24 : 4);
}

static void heard(struct link *link, const uint8_t *message) {
    static const uint8_t config[4] = {0, 0, 0, 128}, bad_vendor[4] = {0, 1, 0, 3};
    unsigned size = get16(message + 2);
    switch (message[1]) {
    case 2: reply(link, 3, message, message + 8, size - 8); break;
    case 4: reply(link, 1, message, bad_vendor, 4); break;
    case 5: features(link, message); link->joined = 1; break;
    case 7: reply(link, 8, message, config, 4); break;
    case 13: packet_outs++; break;
    case 14:
        if (get16(message + 56) != 0) break;
        if (link->added < link->sent && latencies && latency_count < MOST_LATENCIES)
            latencies[latency_count++] = (now() - link->when[link->added % MOST_IN_FLIGHT]) * 1e6;
        link->added++;
        link->owes = 1;
        break;
    case 16: statistics(link, message); break;
    case 18:
        reply(link, 19, message, 0, 0);
        link->owes = 0;
        break;
    }
}

static void take(struct link *link) {
    ssize_t n = read(link->fd, link->in + link->filled, ROOM - link->filled);
    if (n == 0) {
        errno = 0;
        fail("the controller closed a connection");
    }
    if (n < 0 && errno != EAGAIN && errno != EINTR) fail("a read");
    if (n < 0) return;
    link->filled += n;
    size_t at = 0;
    while (link->filled - at >= 8 && link->filled - at >= get16(link->in + at + 2)) {
        if (get16(link->in + at + 2) < 8) fail("a short message");
        heard(link, link->in + at);
        at += get16(link->in + at + 2);
    }
    memmove(link->in, link->in + at, link->filled -= at);
}

/* Waits for what comes, some milliseconds at most, and takes it. */
static void turn(int milliseconds) {
    struct pollfd fds[MOST_SWITCHES];
    for (int i = 0; i < count; i++) {
        flush(links[i]);
        fds[i] = (struct pollfd){links[i]->fd, POLLIN | (links[i]->begun < links[i]->ended ? POLLOUT : 0), 0};
    }
    if (poll(fds, count, milliseconds) < 0 && errno != EINTR) fail("a poll");
    for (int i = 0; i < count; i++)
        if (fds[i].revents & (POLLIN | POLLHUP | POLLERR)) take(links[i]);
}

static void rest(double seconds) {
    for (double end = now() + seconds; now() < end;) turn(5);
}

static void begin(int port, int switches) {
    struct sockaddr_in to = {.sin_family = AF_INET, .sin_port = htons(port), .sin_addr.s_addr = htonl(INADDR_LOOPBACK)};
    int one = 1;
    for (count = 0; count < switches; count++) {
        struct link *link = links[count] = calloc(1, sizeof *link);
        if (!link) fail("memory");
        link->number = count + 1;
        link->fd = socket(AF_INET, SOCK_STREAM, 0);
        if (link->fd < 0 || connect(link->fd, (void *)&to, sizeof to)) fail("a connection");
        setsockopt(link->fd, IPPROTO_TCP, TCP_NODELAY, &one, sizeof one);
        fcntl(link->fd, F_SETFL, O_NONBLOCK);
        reply(link, 0, 0, 0, 0);
    }
}

static int joined(void) {
    int found = 0;
    for (int i = 0; i < count; i++) found += links[i]->joined;
    return found;
}

static uint64_t added(void) {
    uint64_t sum = 0;
    for (int i = 0; i < count; i++) sum += links[i]->added;
    return sum;
}

/* Awaits that all have joined and nothing is added any more. Then each switch tells of the station that is always the receiver. */
static void settle(void) {
    for (double end = now() + 30; joined() < count && now() < end;) turn(5);
    if (joined() < count) fail("a switch is not asked who it is");
    rest(0.5);
    for (int i = 0; i < count; i++) packet_in(links[i], 1, 0x00ffffff, 0xffffff01);
    uint64_t before;
    do before = added(), rest(0.5);
    while (added() != before);
    for (int i = 0; i < count; i++) links[i]->added = 0;
}

static int order(const void *a, const void *b) {
    float x = *(const float *)a, y = *(const float *)b;
    return (x > y) - (x < y);
}

static float of_hundred(int place) { return latency_count ? latencies[latency_count * place / 100] : 0; }

/* Has each switch add so many entries, which are not counted. */
static void fill(uint64_t entries) {
    for (uint64_t rest = entries * count; rest > 0;) {
        rest = entries * count - added();
        for (int i = 0; i < count; i++)
            while (links[i]->sent < entries && links[i]->sent - links[i]->added < 32) event(links[i]);
        if (rest > 0) turn(5);
    }
    for (int i = 0; i < count; i++) links[i]->sent = links[i]->added = 0;
}

static int rate(int port, int switches, int in_flight, int is_paced, double seconds, uint64_t before) {
    begin(port, switches);
    settle();
    fill(before);
    latencies = malloc(MOST_LATENCIES * sizeof *latencies);
    uint64_t quarter[5] = {0}, outs = packet_outs;
    double start = now();
    for (int q = 1; q <= 4; q++) {
        while (now() < start + seconds * q / 4) {
            for (int i = 0; i < count; i++)
                while (links[i]->sent - links[i]->added < (unsigned)in_flight && !(is_paced && links[i]->owes)) event(links[i]);
            turn(5);
        }
        quarter[q] = added();
    }
    qsort(latencies, latency_count, sizeof *latencies, order);
    printf("rate=%.0f first=%.0f last=%.0f p50=%.0f p99=%.0f packet_outs=%llu\n", quarter[4] / seconds, quarter[1] * 4 / seconds,
           (quarter[4] - quarter[3]) * 4 / seconds, of_hundred(50), of_hundred(99), (unsigned long long)(packet_outs - outs));
    return 0;
}

static int joins(int port, int switches, unsigned additions, double seconds) {
    double start = now(), last = start;
    int ready = 0;
    for (begin(port, switches); ready < switches && now() < start + seconds;) {
        turn(5);
        int found = 0;
        for (int i = 0; i < count; i++) found += links[i]->added >= additions;
        if (found > ready) ready = found, last = now();
    }
    printf("joined=%d milliseconds=%.0f\n", ready, (last - start) * 1e3);
    return ready < switches;
}

static int flood(int port, unsigned events, double seconds) {
    begin(port, 2);
    settle();
    struct link *loud = links[0], *other = links[1];
    for (unsigned i = 0; i < events; i++) packet_in(loud, 2, ++source, 0x00ffffff);
    latencies = malloc(MOST_LATENCIES * sizeof *latencies);
    double start = now(), taken = 0, done = 0, wait = 0;
    uint64_t served = 0;
    while (now() < start + seconds && (!done || !taken)) {
        if (other->sent == other->added) event(other);
        turn(5);
        if (!taken && loud->begun == loud->ended) taken = now() - start;
        if (!done && loud->added >= events) done = now() - start;
        /* FLOW_MODs that come behind the flood do not count. */
        served = other->added;
        if (other->sent > other->added) {
            double waited = now() - other->when[other->added % MOST_IN_FLIGHT];
            if (waited > wait) wait = waited;
        }
    }
    printf("taken=%.2f added=%llu done=%.2f served=%llu longest=%.0f\n", taken, (unsigned long long)loud->added, done ? done : now() - start,
           (unsigned long long)served, wait * 1e3);
    return 0;
}

/* Prints what was found, and keeps the connections until the standard input ends. */
static int ends(int status) {
    fflush(stdout);
    fcntl(0, F_SETFL, O_NONBLOCK);
    for (char byte; read(0, &byte, 1) != 0;) turn(5);
    return status;
}

int main(int argc, char **argv) {
    if (argc == 9 && !strcmp(argv[1], "rate")) {
        reason = atoi(argv[5]);
        return ends(rate(atoi(argv[2]), atoi(argv[3]), atoi(argv[4]), atoi(argv[6]), atof(argv[7]), atoi(argv[8])));
    }
    if (argc == 6 && !strcmp(argv[1], "joins")) return ends(joins(atoi(argv[2]), atoi(argv[3]), atoi(argv[4]), atof(argv[5])));
    if (argc == 5 && !strcmp(argv[1], "flood")) return ends(flood(atoi(argv[2]), atoi(argv[3]), atof(argv[4])));
    fprintf(stderr, "see the head of bench/live_client.c\n");
    return 2;
}
