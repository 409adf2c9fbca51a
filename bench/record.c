// Rows of a record: a run of many messages written as a file, and read back into as many dwords as the file has bytes, for one dword.
// Before anything is timed all recorders make the same calls, of which every kind of answer comes, and must say and leave the same.
#include "record.h"
#include "bench.h"
#include <string.h>

struct record record __attribute__((aligned(4096)));
#define EACH_RECORDER for (const struct recorder *w = recorders; w; w = w->next)
static const size_t typical[] = {2, 4, 3, 2, 8, 5, 2, 16, 3, 6, 2, 32, 4, 2, 9, 64}; // lengths of messages

static uint32_t some(uint64_t *x, uint32_t below)
{
    *x ^= *x << 13;
    *x ^= *x >> 7;
    *x ^= *x << 17;
    return (uint32_t)(*x >> 20) % below;
}
// Numbers as they come on a channel: addresses and words with the top bit, fences, and counts and flags of a byte; or all of a byte.
static uint32_t some_dword(uint64_t *x, int small)
{
    uint32_t which = some(x, 16), number = some(x, 1 << 30);
    if (small || which < 5) return number % 128;
    return which < 14 ? number | 0xc0000000 : number >> some(x, 24);
}
static uint8_t *put(uint8_t *to, uint32_t x)
{
    for (; x > 127; x >>= 7) *to++ = x | 128;
    *to++ = x;
    return to;
}
// A record of so many dwords, unless it lies there already.
static void lay_record(size_t dwords, int small)
{
    static size_t laid;
    static int laid_small;
    uint64_t x = 88172645463325252u;
    uint8_t *to = record.file;
    if (laid == dwords && laid_small == small) return;
    for (size_t at = 0, i = 0, len; at < dwords; at += 2 + len, i++) {
        len = typical[i % (sizeof typical / sizeof *typical)];
        if (dwords - at < len + 5) len = dwords - at - 2; // the last
        uint32_t *m = record.run + at;
        m[0] = i % 5 < 2;
        m[1] = len;
        m[2] = (small ? 0 : i << 16) | (len - 1);
        for (size_t j = 3; j < len + 2; j++) m[j] = some_dword(&x, small);
        if (!small && len > 1) m[3] |= m[0] << 31; // the origin
    }
    for (size_t i = 0; i < dwords; i++) to = put(to, record.run[i]);
    record.bytes = to - record.file;
    laid = dwords;
    laid_small = small;
}
static int is_small(const struct row *r) { return strstr(r->what, "small") != 0; }
static void start_record(const struct row *r)
{
    lay_record(r->l, is_small(r));
    memset(record.out, 0, record.bytes);
    memset(record.back, 0, 4 * r->l);
}
static void check_written(const struct row *r)
{
    if (memcmp(record.out, record.file, record.bytes)) die("written wrong by", r->name, 0);
}
static void check_read(const struct row *r)
{
    if (memcmp(record.back, record.run, 4 * r->l)) die("read wrong by", r->name, 0);
}

// Of 64 KiB of dwords, which the limits are counted on, of 1 MiB and of 4 MiB.
void add_record_rows(void)
{
    static const struct { size_t dwords; const char *what[4]; } sizes[] = {
        {1 << 14, {"short_write_mixed", "short_read_mixed", "short_write_small", "short_read_small"}},
        {1 << 18, {"write_mixed", "read_mixed", "write_small", "read_small"}},
        {1 << 20, {"long_write_mixed", "long_read_mixed", "long_write_small", "long_read_small"}},
    };
    for (int a = 0; a < 3; a++) for (int b = 0; b < 4; b++) {
        size_t l = sizes[a].dwords;
        EACH_RECORDER add_row((struct row){sizes[a].what[b], w->name, 0, l, l, l, b % 2 ? w->read : w->write, start_record,
                                           b % 2 ? check_read : check_written, 0, 0});
    }
}

enum { SHORT = 40, SHORT_BYTES = 5 * SHORT };
// A run of a few short messages, now and then with something wrong in it; its dwords.
static size_t some_run(uint64_t *x, uint32_t *run)
{
    size_t at = 0;
    for (uint32_t messages = some(x, 5); messages > 0; messages--) {
        uint32_t len = 1 + some(x, 5), *m = run + at;
        m[0] = some(x, 32) ? some(x, 2) : some(x, 4);
        m[1] = some(x, 32) ? len : some(x, 300);
        m[2] = some(x, 1 << 16) << 8 * some(x, 4) << 8 | (some(x, 32) ? len - 1 : some(x, 6));
        for (uint32_t j = 3; j < len + 2; j++) m[j] = some_dword(x, !some(x, 3));
        at += 2 + len;
    }
    return at && !some(x, 8) ? at - 1 - some(x, at) : at;
}
// Its file, now and then with another byte or cut.
static size_t some_file(uint64_t *x, const uint32_t *run, size_t len, uint8_t *file)
{
    uint8_t *to = file;
    for (size_t i = 0; i < len; i++) to = put(to, run[i]);
    size_t bytes = to - file;
    if (bytes && !some(x, 3)) file[some(x, bytes)] = some(x, 256);
    return bytes && !some(x, 4) ? bytes - 1 - some(x, bytes) : bytes;
}
static uint64_t mixed(uint64_t sum, uint64_t more) { return (sum ^ more ^ sum >> 29) * 0x9e3779b97f4a7c15u; }
static uint64_t answered(uint64_t sum, struct recorded r)
{
    return mixed(mixed(mixed(mixed(sum, r.code), r.at), r.written), r.took);
}
// What so many writes and reads say and leave, in one number; and the answers that came, a bit for each.
static uint64_t said_by(const struct recorder *w, uint64_t *came)
{
    uint64_t x = 1, sum = 0;
    for (int k = 0; k < 20000; k++) {
        uint32_t run[SHORT], back[SHORT_BYTES];
        uint8_t file[SHORT_BYTES], out[SHORT_BYTES];
        size_t len = some_run(&x, run), bytes = some_file(&x, run, len, file);
        memset(out, 0x55, sizeof out);
        memset(back, 0x55, sizeof back);
        struct recorded a = w->write_one(run, len, out, some(&x, 2) ? SHORT_BYTES : some(&x, SHORT_BYTES));
        struct recorded b = w->read_one(file, bytes, back, some(&x, 2) ? bytes : some(&x, SHORT));
        *came |= 1ull << a.code % 64 | 1ull << b.code % 64;
        sum = answered(answered(sum, a), b);
        for (size_t i = 0; i < SHORT_BYTES; i++) sum = mixed(sum, (uint64_t)out[i] << 32 | back[i]);
    }
    return sum;
}
void check_records(void)
{
    const uint64_t wanted = 1 | 1ull << 29 | 1ull << 30;
    uint64_t came = 0, first;
    N = L = 0;
    if (!recorders) return;
    first = said_by(recorders, &came);
    EACH_RECORDER if ((asked("write_mixed", w->name) || asked("short_write_mixed", w->name)) && said_by(w, &came) != first) die("not as by the first recorder: record of", w->name, 0);
    if (came != wanted) die("not every answer came up:", "record", 0);
}
