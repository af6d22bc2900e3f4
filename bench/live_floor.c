/* How fast any controller could be that makes the exchanges of `legosdn run` with the same child, for bench/live.py: a floor.

   live_floor PORT COMMAND WORD..
       Listens at this port of the loopback address, and starts one application. For each event it writes an Event, reads a Message,
       writes the change and its barrier at once, reads the reply, writes an Answer, and goes on until Done. It polls before each read.

   Nothing is checked, kept or undone, and no time is limited: what comes is taken for what has to come. So this is no controller. */
#include <arpa/inet.h>
#include <errno.h>
#include <netinet/in.h>
#include <netinet/tcp.h>
#include <poll.h>
#include <stdint.h>
#include <stdio.h>
#include <stdlib.h>
#include <string.h>
#include <sys/socket.h>
#include <unistd.h>

enum { MOST_LINKS = 256, ROOM = 1 << 17, FRAME_ROOM = 1 << 21 };
enum { FEATURES_REPLY = 6, PACKET_IN = 10, FLOW_MOD = 14, BARRIER_REPLY = 19 };
enum { MESSAGE = 1, DONE = 5 };
enum { JOIN = 1, FRAME_CAME = 3 };

struct link {
    int fd;
    uint8_t dpid[8], in[ROOM];
    size_t filled;
};

static struct link *links[MOST_LINKS];
static int count, to_child, from_child;
static uint8_t frames[FRAME_ROOM];
static size_t framed;
static uint64_t event_number;

static void fail(const char *what) {
    fprintf(stderr, "%s: %s\n", what, strerror(errno));
    exit(1);
}

static unsigned get16(const uint8_t *at) { return at[0] << 8 | at[1]; }
static uint32_t get32(const uint8_t *at) { return (uint32_t)get16(at) << 16 | get16(at + 2); }

static void put(int fd, const void *bytes, size_t size) {
    if (write(fd, bytes, size) != (ssize_t)size) fail("a write");
}

/* Waits until something comes, and reads it behind what there is. */
static void more(int fd, uint8_t *at, size_t *filled, size_t room) {
    struct pollfd it = {fd, POLLIN, 0};
    if (poll(&it, 1, -1) < 0) fail("a poll");
    ssize_t n = read(fd, at + *filled, room - *filled);
    if (n <= 0) fail("a read");
    *filled += n;
}

static void take_away(uint8_t *all, size_t *filled, size_t at, size_t size) {
    memmove(all + at, all + at + size, *filled - at - size);
    *filled -= size;
}

/* Takes the reply to a barrier; what came before it stays, in its order. */
static void take_reply(struct link *link) {
    size_t at = 0;
    for (;;) {
        while (link->filled - at >= 8 && link->filled - at >= get16(link->in + at + 2)) {
            unsigned size = get16(link->in + at + 2);
            if (link->in[at + 1] == BARRIER_REPLY) {
                take_away(link->in, &link->filled, at, size);
                return;
            }
            at += size;
        }
        more(link->fd, link->in, &link->filled, ROOM);
    }
}

/* Sends these messages, with a barrier behind them, and takes the reply. */
static void confirmed(struct link *link, const uint8_t *messages, size_t size) {
    static const uint8_t barrier[8] = {1, 18, 0, 8};
    uint8_t bytes[ROOM];
    memcpy(bytes, messages, size);
    memcpy(bytes + size, barrier, 8);
    put(link->fd, bytes, size + 8);
    take_reply(link);
}

/* Takes a frame of the child; its kind. The frame stays at the front until the next call. */
static int frame(void) {
    static size_t last;
    take_away(frames, &framed, 0, last);
    while (framed < 5 || framed < 4 + get32(frames)) more(from_child, frames, &framed, FRAME_ROOM);
    last = 4 + get32(frames);
    return frames[4];
}

static struct link *link_of(const uint8_t *dpid) {
    for (int i = 0; i < count; i++)
        if (!memcmp(links[i]->dpid, dpid, 8)) return links[i];
    fail("a switch");
    return 0;
}

/* Gives the child an event with this message, and does what it says until it is done. */
static void turn(struct link *link, int kind, const uint8_t *message, size_t size) {
    static const uint8_t fine[6] = {0, 0, 0, 2, 3, 0};
    uint8_t event[ROOM] = {0, 0, 0, 0, 2};
    uint32_t length = htonl(26 + size);
    memcpy(event, &length, 4);
    event_number++;
    for (int i = 0; i < 8; i++) event[12 - i] = event_number >> 8 * i;
    event[21] = kind;
    memcpy(event + 22, link->dpid, 8);
    memcpy(event + 30, message, size);
    memset(event + 34, 0, 4);
    put(to_child, event, 30 + size);
    while (frame() != DONE) {
        if (frames[4] == MESSAGE && frames[14] == FLOW_MOD) confirmed(link_of(frames + 5), frames + 13, get16(frames + 15));
        put(to_child, fine, 6);
    }
}

/* Handles all whole messages of a switch. */
static void heard(struct link *link) {
    /* A FLOW_MOD that deletes all entries, and a SET_CONFIG. */
    static const uint8_t joins[84] = {1, 14, 0, 72, 0, 0, 0, 0, 0, 0x38, 0x20, 0xff, [56] = 0, 3, [64] = 0xff, 0xff, 0xff, 0xff, 0xff, 0xff, 0, 0, 1, 9, 0, 12, [83] = 128};
    uint8_t message[ROOM];
    while (link->filled >= 8 && link->filled >= get16(link->in + 2)) {
        unsigned size = get16(link->in + 2);
        memcpy(message, link->in, size);
        take_away(link->in, &link->filled, 0, size);
        if (message[1] == FEATURES_REPLY) {
            memcpy(link->dpid, message + 8, 8);
            confirmed(link, joins, sizeof joins);
            turn(link, JOIN, message, size);
        } else if (message[1] == PACKET_IN) {
            turn(link, FRAME_CAME, message, size);
        }
    }
}

static void welcome(int listener) {
    static const uint8_t greeting[16] = {1, 0, 0, 8, 0, 0, 0, 0, 1, 5, 0, 8};
    int one = 1;
    struct link *link = links[count++] = calloc(1, sizeof *link);
    if (!link || (link->fd = accept(listener, 0, 0)) < 0) fail("a connection");
    setsockopt(link->fd, IPPROTO_TCP, TCP_NODELAY, &one, sizeof one);
    put(link->fd, greeting, sizeof greeting);
}

static void start(char **command) {
    static const uint8_t restore[5] = {0, 0, 0, 1, 1};
    int in[2], out[2];
    if (pipe(in) || pipe(out)) fail("a pipe");
    if (fork() == 0) {
        dup2(in[0], 0), dup2(out[1], 1);
        close(in[1]), close(out[0]);
        execvp(command[0], command);
        fail(command[0]);
    }
    close(in[0]), close(out[1]);
    to_child = in[1], from_child = out[0];
    put(to_child, restore, sizeof restore);
    frame();
}

int main(int argc, char **argv) {
    if (argc < 3) {
        fprintf(stderr, "see the head of bench/live_floor.c\n");
        return 2;
    }
    struct sockaddr_in here = {.sin_family = AF_INET, .sin_port = htons(atoi(argv[1])), .sin_addr.s_addr = htonl(INADDR_LOOPBACK)};
    int one = 1, listener = socket(AF_INET, SOCK_STREAM, 0);
    setsockopt(listener, SOL_SOCKET, SO_REUSEADDR, &one, sizeof one);
    start(argv + 2);
    if (bind(listener, (void *)&here, sizeof here) || listen(listener, 128)) fail("listening");
    for (;;) {
        struct pollfd fds[MOST_LINKS + 1] = {{listener, POLLIN, 0}};
        for (int i = 0; i < count; i++) fds[i + 1] = (struct pollfd){links[i]->fd, POLLIN, 0};
        int known = count;
        if (poll(fds, known + 1, -1) < 0) fail("a poll");
        for (int i = 0; i < known; i++) {
            if (!fds[i + 1].revents) continue;
            ssize_t n = read(links[i]->fd, links[i]->in + links[i]->filled, ROOM - links[i]->filled);
            if (n <= 0) return 0;
            links[i]->filled += n;
            heard(links[i]);
        }
        if (fds[0].revents && count < MOST_LINKS) welcome(listener);
    }
}
