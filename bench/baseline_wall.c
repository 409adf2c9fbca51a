// The driver code of a wall of requests, with the tests that the library makes; compiled as baseline.c is, and apart from the timed loop.
// Its send is of the kind (b) there: at most two straight runs by memcpy.
#include "baseline.h"
#include <string.h>

// The open request with this fence among the first n, or n.
static size_t find(const struct request *t, size_t n, uint16_t fence)
{
    size_t i = 0;
    while (i < n && !(t[i].open && t[i].fence == fence)) i++;
    return i;
}

// A flag for the low eight bits of each open fence: only where it is set already can the same fence have come before.
static uint32_t judge(const struct shared *w, const struct request *t, size_t n, uint8_t flags[256])
{
    if (n < 1 || n > 256) return 35;
    memset(flags, 0, 256);
    for (size_t i = 0; i < n; i++) {
        if (!t[i].open) continue;
        uint8_t *flag = flags + (t[i].fence & 255);
        if (*flag && find(t, i, t[i].fence) < i) return 35;
        *flag = 1;
    }
    return w->n % 1024 || w->n < 1024 || w->n > 16384 ? 2 : 0;
}

// The descriptor's words, each read once, then room for the message, which is judged already.
static uint32_t ring_check(struct ring *r, size_t len)
{
    uint32_t *d = r->desc;
    if (d[2]) return 6;
    uint32_t head = d[0], tail = d[1];
    if (head >= r->n || tail >= r->n) { d[2] = 1; return 7; }
    if (tail != r->own) { d[2] = 4; return 8; }
    size_t used = tail >= head ? tail - head : r->n - head + tail;
    return len > r->n - 1 - used ? 10 : 0;
}

// The message with another header, the one that was judged but for its fence.
static void put(struct ring *r, uint32_t header, const uint32_t *msg, size_t len)
{
    size_t first = r->n - r->own, end = r->own + len;
    if (len <= first) {
        memcpy(r->buf + r->own, msg, len * 4);
    } else {
        memcpy(r->buf + r->own, msg, first * 4);
        memcpy(r->buf, msg + first, (len - first) * 4);
    }
    r->buf[r->own] = header;
    r->desc[1] = r->own = end >= r->n ? end - r->n : end;
}

struct told wall_send(struct shared *w, struct request *t, size_t records, struct ring *r, const uint32_t *msg, size_t len, uint32_t room)
{
    uint8_t flags[256];
    uint32_t c = judge(w, t, records, flags), sum = room;
    if (c) return (struct told){.code = c};
    if (room > 256) return (struct told){.code = 14};
    if (len < 2) return (struct told){.code = 27};
    uint32_t header = msg[0], word = msg[1];
    if ((header & 0xff00) || (header & 0xff) + 1 != len || (word >> 28 & 7)) return (struct told){.code = 27};
    size_t free = records;
    for (size_t i = records; i-- > 0;) {
        if (t[i].open) sum += t[i].room;
        else free = i;
    }
    if (free == records) return (struct told){.code = 26};
    if (sum > w->n - 1u) return (struct told){.code = 28};
    uint16_t fence = w->last + 1;
    while (flags[fence & 255] && find(t, records, fence) < records) fence++;
    c = ring_check(r, len);
    if (c) return (struct told){.code = c};
    put(r, (header & 0xffff) | (uint32_t)fence << 16, msg, len);
    t[free] = (struct request){1, fence, word, 0, room};
    w->last = fence;
    return (struct told){.fence = fence};
}

struct told wall_reply(const struct shared *w, struct request *t, size_t records, const uint32_t *msg, size_t len)
{
    uint8_t flags[256];
    uint32_t c = judge(w, t, records, flags);
    if (c) return (struct told){.code = c};
    if (len < 2) return (struct told){.code = 4};
    uint32_t header = msg[0], kind = msg[1] >> 28 & 7;
    if ((header & 0xff00) || (header & 0xff) + 1 != len || kind == 4) return (struct told){.code = 4};
    size_t at = kind < 3 || !flags[header >> 16 & 255] ? records : find(t, records, header >> 16);
    if (at == records) return (struct told){.code = 27};
    struct request *r = t + at;
    if (kind == 3 && r->count < 65535) r->count++;
    struct told a = {.kind = kind, .action = r->action, .count = r->count};
    if (kind != 3) *r = (struct request){0, 0, 0, 0, 0};
    return a;
}
