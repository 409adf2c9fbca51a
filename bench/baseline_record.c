// The driver code of a record to mail home, with the tests that the library makes; compiled as baseline.c is, and apart from the timed loop.
// Memory stands still for it: what was judged is not judged again.
#include "baseline.h"
#include <string.h>

enum { UNFINISHED = 1, MISSING, TOO_LONG, TOO_WIDE, DIRECTION, LENGTH, HEADER };

static size_t bytes_of(uint32_t x) { return 1 + (x > 0x7f) + (x > 0x3fff) + (x > 0x1fffff) + (x > 0xfffffff); }

// What is wrong with a message of a run that has so many dwords left, or 0.
static uint32_t judge(const uint32_t *m, size_t left)
{
    if (m[0] > 1) return DIRECTION;
    if (left < 2) return MISSING;
    if (m[1] < 1 || m[1] > 256) return LENGTH;
    if (left < 3) return MISSING;
    if ((m[2] & 0xff) + 1 != m[1]) return HEADER;
    return left - 2 < m[1] ? MISSING : 0;
}

struct recorded record_write(const uint32_t *run, size_t len, uint8_t *file, size_t room)
{
    size_t needed = 0;
    for (size_t at = 0, end; at < len; at = end) {
        uint32_t fault = judge(run + at, len - at);
        if (fault) return (struct recorded){29, fault, at, 0, 0};
        end = at + 2 + run[at + 1];
        for (size_t i = at; i < end; i++) needed += bytes_of(run[i]);
    }
    if (needed > room) return (struct recorded){.code = 30};
    for (size_t i = 0; i < len; i++) {
        uint32_t x = run[i];
        for (; x > 0x7f; x >>= 7) *file++ = x | 0x80;
        *file++ = x;
    }
    return (struct recorded){.written = needed};
}

// The number at p into x; 0, or what is wrong with it. next is where the one behind it starts.
static inline uint32_t number(const uint8_t *p, const uint8_t *end, uint32_t *x, const uint8_t **next)
{
    uint32_t sum = 0;
    if (p == end) return MISSING;
    for (int shift = 0;; shift += 7) {
        if (p == end) return UNFINISHED;
        uint32_t b = *p++;
        if (shift == 28 && b > 15) return TOO_WIDE;
        sum |= (b & 0x7f) << shift;
        if (b & 0x80) continue;
        if (!b && shift) return TOO_LONG;
        *x = sum;
        *next = p;
        return 0;
    }
}

// A message of the file from at on into m; 0, or what is wrong with the number that at then names.
static uint32_t message(const uint8_t *file, size_t len, size_t *at, uint32_t *m)
{
    const uint8_t *p = file + *at, *next = p, *end = file + len;
    size_t last = 3;
    uint32_t fault = 0;
    for (size_t i = 0; i < last; i++, p = next) {
        fault = number(p, end, m + i, &next);
        if (fault) break;
        if (i > 2) continue;
        if (i == 0 && m[0] > 1) fault = DIRECTION;
        if (i == 1 && (m[1] < 1 || m[1] > 256)) fault = LENGTH;
        if (i == 2 && (m[2] & 0xff) + 1 != m[1]) fault = HEADER;
        if (fault) break;
        if (i == 1) last = m[1] + 2;
    }
    *at = p - file;
    return fault;
}

// Where the output may be too short a first pass counts what is to be laid. Only whole messages are laid, from a copy.
struct recorded record_read(const uint8_t *file, size_t len, uint32_t *run, size_t room)
{
    struct recorded r = {0};
    uint32_t m[258];
    if (room < len) {
        size_t needed = 0;
        for (size_t at = 0; at < len && !message(file, len, &at, m);) needed += m[1] + 2;
        if (needed > room) return (struct recorded){.code = 30};
    }
    for (size_t at = 0; at < len; r.took = at) {
        r.fault = message(file, len, &at, m);
        if (r.fault) {
            r.code = 29;
            r.at = at;
            return r;
        }
        memcpy(run + r.written, m, 4 * (m[1] + 2));
        r.written += m[1] + 2;
    }
    return r;
}
