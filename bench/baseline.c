// The driver code the library is measured against, with the checks a careful driver makes.
// A file of its own, so that no call is inlined into the timed loop; compiled several ways (see run).
#include "baseline.h"
#include <string.h>

static int known_type(uint32_t hxg)
{
    return ((hxg >> 28) & 7) != 4;
}

// The message, then STATUS, HEAD and TAIL (each read once), then room for it.
static uint32_t send_check(struct ring *r, const uint32_t *msg, size_t len)
{
    uint32_t *d = r->desc;
    if (len < 2 || (msg[0] & 0xff00) || (msg[0] & 0xff) + 1 != len || !known_type(msg[1])) return 4;
    if (d[2]) return 6;
    uint32_t head = d[0], tail = d[1];
    if (head >= r->n || tail >= r->n) { d[2] = 1; return 7; }
    if (tail != r->own) { d[2] = 4; return 8; }
    size_t used = tail >= head ? tail - head : r->n - head + tail;
    return len > r->n - 1 - used ? 10 : 0;
}

// STATUS, HEAD and TAIL, then the header, read once: its length must be there.
static uint32_t receive_check(struct ring *r, size_t room, uint32_t *header)
{
    uint32_t *d = r->desc;
    if (room < 256) return 5;
    if (d[2]) return 6;
    uint32_t head = d[0], tail = d[1];
    if (head >= r->n || tail >= r->n) { d[2] = 1; return 7; }
    if (head != r->own) { d[2] = 4; return 8; }
    if (head == tail) return 11;
    size_t used = tail >= head ? tail - head : r->n - head + tail;
    *header = r->buf[head];
    if ((*header & 0xff) + 1 > used) { d[2] = 2; return 9; }
    return 0;
}

static struct received received(uint32_t header, uint32_t hxg, size_t len)
{
    if ((header & 0xff00) || len < 2 || !known_type(hxg)) return (struct received){13, 0};
    return (struct received){0, len};
}

// (a) One dword at a time, with a test for the end of the ring at each.
uint32_t wrap_send(struct ring *r, const uint32_t *msg, size_t len)
{
    uint32_t c = send_check(r, msg, len), *buf = r->buf, at = r->own, n = r->n;
    if (c) return c;
    for (size_t i = 0; i < len; i++) {
        buf[at] = msg[i];
        if (++at == n) at = 0;
    }
    r->desc[1] = r->own = at;
    return 0;
}

struct received wrap_receive(struct ring *r, uint32_t *out, size_t room)
{
    uint32_t header, c = receive_check(r, room, &header), *buf = r->buf, at = r->own, n = r->n;
    if (c) return (struct received){c, 0};
    size_t len = (header & 0xff) + 1;
    for (size_t i = 0; i < len; i++) {
        out[i] = buf[at];
        if (++at == n) at = 0;
    }
    out[0] = header; // the header that was checked, whatever the ring holds by now
    r->desc[0] = r->own = at;
    return received(header, out[1], len);
}

// (b) At most two straight runs by memcpy.
uint32_t runs_send(struct ring *r, const uint32_t *msg, size_t len)
{
    uint32_t c = send_check(r, msg, len);
    if (c) return c;
    size_t first = r->n - r->own, end = r->own + len;
    if (len <= first) {
        memcpy(r->buf + r->own, msg, len * 4);
    } else {
        memcpy(r->buf + r->own, msg, first * 4);
        memcpy(r->buf, msg + first, (len - first) * 4);
    }
    r->desc[1] = r->own = end >= r->n ? end - r->n : end;
    return 0;
}

struct received runs_receive(struct ring *r, uint32_t *out, size_t room)
{
    uint32_t header, c = receive_check(r, room, &header);
    if (c) return (struct received){c, 0};
    size_t len = (header & 0xff) + 1, first = r->n - r->own, end = r->own + len;
    if (len <= first) {
        memcpy(out, r->buf + r->own, len * 4);
    } else {
        memcpy(out, r->buf + r->own, first * 4);
        memcpy(out + first, r->buf, (len - first) * 4);
    }
    out[0] = header;
    r->desc[0] = r->own = end >= r->n ? end - r->n : end;
    return received(header, out[1], len);
}

// (c) The same bytes with no check at all; a message that would pass the end goes to the start instead.
uint32_t plain_send(struct ring *r, const uint32_t *msg, size_t len)
{
    if (r->own + len > r->n) r->own = 0;
    memcpy(r->buf + r->own, msg, len * 4);
    r->own += len;
    return 0;
}

struct received plain_receive(struct ring *r, uint32_t *out, size_t len)
{
    if (r->own + len > r->n) r->own = 0;
    memcpy(out, r->buf + r->own, len * 4);
    r->own += len;
    return (struct received){0, len};
}

static uint64_t dword(const uint8_t *p)
{
    return (uint32_t)p[0] | (uint32_t)p[1] << 8 | (uint32_t)p[2] << 16 | (uint32_t)p[3] << 24;
}

// A firmware image judged in one pass, in 64-bit numbers so that no sum wraps, and its uCode located.
static inline __attribute__((always_inline)) uint32_t judge(const uint8_t *blob, size_t len, struct css_parts *p)
{
    if (len < 128) return 15;
    uint64_t h = dword(blob + 4), s = dword(blob + 24), k = dword(blob + 28), m = dword(blob + 32), e = dword(blob + 36);
    if (h != 32 + k + m + e || k < 1 || s <= h) return 16;
    if (128 + 4 * (s - h) + 4 * k > len) return 17;
    p->truncated = len < 4 * s;
    p->ucode_start = 128;
    p->ucode_len = 4 * (s - h);
    return 0;
}

uint32_t css_read(const uint8_t *blob, size_t len, struct css_parts *p) { return judge(blob, len, p); }

uint32_t css_copy(const uint8_t *blob, size_t len, uint8_t *dst, size_t room, size_t *done)
{
    struct css_parts p;
    uint32_t c = judge(blob, len, &p);
    if (c) return c;
    *done = p.ucode_len;
    if (p.ucode_len > room) return 100;
    memcpy(dst, blob + p.ucode_start, p.ucode_len);
    return 0;
}

// A directory's only entry of that name: one walk over all entries, twelve bytes compared at once.
uint32_t cpd_find(const uint8_t *blob, size_t len, const char *name, size_t name_len, size_t *start, size_t *size)
{
    uint8_t key[12] = {0};
    if (name_len < 1 || name_len > 12 || memchr(name, 0, name_len)) return 14;
    memcpy(key, name, name_len);
    if (len < 20) return 15;
    if (memcmp(blob, "$CPD", 4) || blob[10] < 20) return 18;
    uint64_t entries = dword(blob + 4), at = blob[10], found = 0;
    if (at + 24 * entries > len) return 19;
    for (; entries > 0; entries--, at += 24) {
        if (memcmp(blob + at, key, 12)) continue;
        if (found) return 22;
        found = at; // never 0: the header comes first
    }
    if (!found) return 20;
    uint64_t off = dword(blob + found + 12) & 0x1ffffff, n = dword(blob + found + 16);
    if (off + n > len) return 21;
    *start = off;
    *size = n;
    return 0;
}
