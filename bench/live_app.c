/* The learning switch of sdk/python/examples/learning_by_additions.py in C, for bench/live.py: what the controller itself takes.

   It adds an entry for the source of each PACKET_IN, keeps no memory of what it added, and expects of the host that frames are whole
   and as docs/FRAMES.md has them. */
#include <stdint.h>
#include <stdio.h>
#include <stdlib.h>
#include <string.h>
#include <unistd.h>

enum { MESSAGE = 1, DONE = 5, READY = 6, EVENT = 2, JOIN = 1, PACKET_IN = 3, MOD = 72 };

static uint8_t in[1 << 21];

static void take(uint8_t *to, size_t size) {
    while (size) {
        ssize_t n = read(0, to, size);
        if (n <= 0) exit(0);
        to += n, size -= n;
    }
}

/* Takes a frame; gives its kind, with its body in `in`. */
static int frame(void) {
    take(in, 5);
    size_t size = in[0] << 24 | in[1] << 16 | in[2] << 8 | in[3];
    int kind = in[4];
    if (size < 1 || size > sizeof in) exit(1);
    take(in, size - 1);
    return kind;
}

static void give(int kind, const uint8_t *body, size_t size) {
    uint8_t bytes[256] = {0, 0, 0, 1 + size, kind};
    memcpy(bytes + 5, body, size);
    if (write(1, bytes, 5 + size) != (ssize_t)(5 + size)) exit(1);
}

/* Adds an entry, and awaits the answer. Where it has an address it is for frames to that one. */
static void add(const uint8_t *dpid, const uint8_t *address, int type, int priority, const uint8_t *actions, int size) {
    uint8_t body[8 + MOD + 16] = {0}, *mod = body + 8;
    memcpy(body, dpid, 8);
    mod[0] = 1, mod[1] = 14, mod[3] = MOD + size;
    uint32_t wildcards = 0x3820ff & ~(address ? 1u << 3 : 0) & ~(type ? 1u << 4 : 0);
    mod[9] = wildcards >> 16, mod[10] = wildcards >> 8, mod[11] = wildcards;
    if (address) memcpy(mod + 20, address, 6);
    mod[30] = type >> 8, mod[31] = type;
    mod[63] = priority;
    memset(mod + 64, 0xff, 6);
    memcpy(mod + MOD, actions, size);
    give(MESSAGE, body, 8 + MOD + size);
    frame();
}

int main(void) {
    static const uint8_t tell[16] = {0, 0, 0, 8, 0xff, 0xfb, 0, 0, 0, 0, 0, 8, 0xff, 0xfd, 0xff, 0xff}, done[2] = {0, 0};
    frame();
    give(READY, done, 0);
    for (;;) {
        if (frame() != EVENT) return 1;
        /* Number and moment, 8 bytes each, the kind, the switch; then the message: a PACKET_IN has its frame at 18. */
        uint8_t dpid[8], address[6], out[8] = {0, 0, 0, 8, in[39], in[40], 0, 0};
        int kind = in[16];
        memcpy(dpid, in + 17, 8);
        memcpy(address, in + 25 + 18 + 6, 6);
        if (kind == JOIN) add(dpid, 0, 0, 0, tell, 16), add(dpid, 0, 0x0806, 20, tell, 16);
        if (kind == PACKET_IN) add(dpid, address, 0, 10, out, 8);
        give(DONE, done, 2);
    }
}
