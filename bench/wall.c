// Rows of a wall of requests: sends where all records but the last are open, and busy replies where all are, which leave them open.
// Before anything is timed all keepers make the same calls, of which every kind of answer comes, and must say and leave the same.
#include "wall.h"
#include "bench.h"
#include <string.h>

struct requests requests __attribute__((aligned(4096)));
#define EACH_KEEPER for (const struct keeper *w = keepers; w; w = w->next)
enum { RING = 1024, START = 9 }; // of the channel that requests go out by: its dwords, and where offsets start

static void lay_requests(size_t open)
{
    memset(&requests, 0, sizeof requests);
    for (size_t i = 0; i < open; i++) requests.table[i] = (struct request){1, FIRST_FENCE + i, FIRST_FENCE + i, 0, REPLY};
    requests.shared = (struct shared){FIRST_FENCE + open - 1, 1024};
    for (size_t j = 0; j < 8; j++) {
        for (size_t i = 0; i < ASKED; i++) requests.asked[j][i] = j << 16 ^ i * 0x01010101u;
        requests.asked[j][0] = (0x1230u + j) << 16 | (ASKED - 1);
        requests.asked[j][1] = 0x00010000u | j;
    }
}
// An empty ring of N, its offsets at that.
static void lay_channel(const struct keeper *w, uint32_t at)
{
    memset(page.desc, 0, sizeof page.desc);
    w->start(at);
    page.desc[0] = page.desc[1] = at;
}
static void start_send(const struct row *r)
{
    lay_requests(r->l - 1);
    EACH_KEEPER if (w->name == r->name) lay_channel(w, START);
}
static void start_reply(const struct row *r)
{
    lay_requests(r->l);
    for (size_t j = 0; j < 8; j++) {
        requests.replies[j][0] = (FIRST_FENCE + j * (r->l - 1) / 7) << 16 | 1;
        requests.replies[j][1] = 0x80000000u | BUSY << 28;
    }
}
// Only counts have changed, and the free record is free again.
static void check_requests(const struct row *r)
{
    for (size_t i = 0; i < 256; i++) {
        struct request t = requests.table[i];
        int open = i < r->l - (r->start == start_send);
        if (t.open != open || t.fence != t.action || t.fence != (open ? (uint16_t)(FIRST_FENCE + i) : 0) || t.room != open * REPLY)
            die("table spoilt by", r->name, i);
    }
}
// The last request sent lies before TAIL, with the fence that was given last.
static void check_sent(const struct row *r)
{
    uint32_t at = (page.desc[1] + N - ASKED) % N, bad = buf[at] ^ ((uint32_t)requests.shared.last << 16 | (ASKED - 1));
    for (size_t i = 1; i < ASKED; i++) bad |= buf[(at + i) % N] ^ requests.asked[7][i];
    if (bad) die("sent wrong by", r->name, bad);
    check_requests(r);
}

void add_wall_rows(void)
{
    static const struct { size_t records, k; } sizes[] = {{16, 1000}, {256, 200}};
    for (int a = 0; a < 2; a++) {
        size_t l = sizes[a].records, k = sizes[a].k;
        EACH_KEEPER add_row((struct row){"wall_send", w->name, RING, l, k, 64, w->send, start_send, check_sent, 0, 0});
        EACH_KEEPER add_row((struct row){"wall_reply", w->name, 0, l, k, 64, w->reply, start_reply, check_requests, 0, 0});
    }
}

static uint32_t some(uint64_t *x, uint32_t below)
{
    *x = *x * 6364136223846793005u + 1442695040888963407u;
    return (uint32_t)(*x >> 33) % below;
}
// Few fences, so that many are open, many alike in their low eight bits, and some twice.
static uint16_t some_fence(uint64_t *x, size_t n) { return FIRST_FENCE + some(x, n / 2 + 2) + 256 * some(x, 4); }

// What is wrong with a send beside its table: its message, its reply dwords, the reply buffer or the ring.
static struct told some_send(const struct keeper *w, size_t n, uint64_t *x)
{
    static const uint32_t rooms[6] = {0, REPLY, 255, 256, 257, 65792};
    uint32_t what = some(x, 24), len = 2 + some(x, 15), msg[ASKED + 1] = {0};
    for (size_t i = 2; i < len; i++) msg[i] = *x + i;
    msg[0] = some(x, 65536) << 16 | (what == 0 ? 0x100 : 0) | (len - (what != 1));
    msg[1] = (what == 2 ? some(x, 8) << 28 : 0) | some(x, 1 << 28);
    if (what == 3) requests.shared.n = 1000;
    if (what == 4) page.desc[2] = 8;
    if (what == 5) page.desc[0] = N + some(x, 2);
    if (what == 6) page.desc[1] = (page.desc[1] + 1) % N;
    if (what == 7) page.desc[0] = (page.desc[1] + 2) % N;
    return w->send_one(n, msg, len, rooms[some(x, what < 16 ? 4 : 6)]);
}
static struct told some_call(const struct keeper *w, size_t n, uint64_t *x)
{
    static const uint16_t counts[3] = {7, 65534, 65535}, rooms[8] = {0, 0, 0, 0, REPLY, 256, 1023, 65535};
    struct request *r = requests.table + some(x, n < 256 ? n + 1 : 256);
    uint32_t what = some(x, 16), fence = some(x, 3) ? r->fence : some_fence(x, n), len = 2 + some(x, 3);
    uint32_t msg[4] = {fence << 16 | (what == 15 ? 0x100 : 0) | (len - 1), some(x, 16) << 28 | some(x, 4)};
    if (what == 0) *r = (struct request){some(x, 3), some_fence(x, n), some(x, 9), counts[some(x, 3)], rooms[some(x, 8)]};
    if (what == 1) r->open = 0; // whatever else it holds
    if (what == 2) requests.shared.last = some_fence(x, n);
    if (what == 3 && !some(x, 8)) memset(requests.table, 0, sizeof requests.table);
    if (what < 8) return some_send(w, n, x);
    return w->reply_one(n, msg, what == 14 ? some(x, 5) : len);
}
static uint64_t mixed(uint64_t sum, uint64_t more) { return (sum ^ more ^ sum >> 29) * 0x9e3779b97f4a7c15u; }
// What a call left, in one number: table, shared words, descriptor, and the dwords before TAIL.
static uint64_t left_by(uint64_t sum)
{
    const uint16_t *halves = (const uint16_t *)&requests;
    for (size_t i = 0; i < (sizeof requests.table + sizeof requests.shared) / 2; i++) sum = mixed(sum, halves[i]);
    for (int i = 0; i < 3; i++) sum = mixed(sum, page.desc[i]);
    for (uint32_t i = 1; i <= ASKED + 1; i++) sum = mixed(sum, buf[(page.desc[1] + N - i) % N]);
    return sum;
}
// What so many calls at a table of n records say and leave, in one number; and the answers that came, a bit for each.
static uint64_t said_by(const struct keeper *w, size_t n, uint64_t *came)
{
    uint64_t x = n + 1, sum = 0;
    lay_requests(n < 256 ? n : 256);
    memset(buf, 0, 4 * N);
    lay_channel(w, START);
    for (int k = 0; k < 4000; k++) {
        uint32_t tail = page.desc[1];
        struct told a = some_call(w, n, &x);
        *came |= 1ull << a.code % 64;
        sum = mixed(mixed(sum, (uint64_t)a.code << 32 | a.kind), (uint64_t)a.fence << 32 | (uint32_t)a.action << 16 | a.count);
        sum = left_by(sum);
        if (a.code) page.desc[1] = tail; // of a call that found something wrong, that is mended
        page.desc[0] = page.desc[1];
        page.desc[2] = 0;
        requests.shared.n = 1024;
        if (a.code == 35 && n && n <= 256) memset(requests.table + some(&x, n), 0, sizeof *requests.table);
    }
    return sum;
}
void check_walls(void)
{
    static const size_t sizes[] = {0, 1, 2, 3, 16, 17, 255, 256, 257};
    const uint64_t bad_table = 1ull << 35, no_room = 1ull << 28;
    const uint64_t others = 1ull | 1ull << 2 | 1ull << 4 | 7ull << 6 | 1ull << 10 | 1ull << 14 | 3ull << 26;
    for (size_t a = 0; a < sizeof sizes / sizeof *sizes; a++) {
        N = RING;
        L = sizes[a];
        uint64_t came = 0, first = said_by(keepers, L, &came), wanted = 0;
        EACH_KEEPER if (asked("wall_reply", w->name) && said_by(w, L, &came) != first) die("not as by the first keeper: wall of", w->name, 0);
        // One record alone is no bad table, and holds nothing where it is free; another number of them is nothing else.
        if (L && L <= 256) wanted = others + (L > 1 ? no_room : 0);
        if (came != wanted + (L != 1 ? bad_table : 0)) die("not every answer came up:", "wall", 0);
    }
}
