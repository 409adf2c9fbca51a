// Rows of the channel, and its memory, laid afresh before each block: rings that go round, where one message in a round passes the end;
// rows with every message at one place; and single dwords in steps.
#include "bench.h"
#include <string.h>

struct page page __attribute__((aligned(4096)));
uint32_t buf[16384] __attribute__((aligned(4096)));
uint32_t msgs[8][256] __attribute__((aligned(64)));
uint32_t place, behind;

// Eight messages of L dwords and an empty ring of N, everybody's offsets at that.
static void fresh(const struct way *w, uint32_t at)
{
    for (size_t j = 0; j < 8; j++) {
        for (size_t i = 0; i < 256; i++) msgs[j][i] = j << 16 ^ i * 0x01010101u; // no dword alike in two of them
        msgs[j][0] = (0x1230u + j) << 16 | (L - 1);
        msgs[j][1] = 0x00010000u | j;
    }
    w->start(at);
    page.desc[0] = page.desc[1] = at;
}
// Offsets start in the middle of a message.
static void start_round(const struct row *r) { fresh(r->way, L / 2 + (L > 2)); }
// A ring full of messages, all but one of them pending.
static void start_full(const struct row *r)
{
    start_round(r);
    for (size_t j = 0, at = page.desc[0]; j < N / L; j++) {
        for (size_t i = 0; i < L; i++) {
            buf[at] = msgs[j % 8][i];
            at = at + 1 == N ? 0 : at + 1;
        }
    }
    page.desc[1] = (page.desc[0] + N - L) % N;
}
// Blocks are whole rounds, so the last message received is the last of a round.
static void check_last(const struct row *r)
{
    if (!r->way->alone && memcmp(page.out, msgs[(N / L - 1) % 8], 4 * L)) die("received wrong by", r->name, 0);
}

// Zeros where the message goes and beside it, or the message itself where it is to be received.
static void start_there(const struct row *r)
{
    place = N - r->left;
    behind = (place + L) % N;
    fresh(r->way, place);
    for (size_t i = 0; i < L + 2; i++) buf[(place + N - 1 + i) % N] = 0;
}
static void start_pending(const struct row *r)
{
    start_there(r);
    for (size_t i = 0; i < L; i++) buf[(place + i) % N] = msgs[7][i];
    memset(page.out, 0, sizeof page.out);
}
// The last message sent must lie there, with nothing stored beside it.
static void check_ring(const struct row *r)
{
    uint32_t bad = buf[behind] | buf[(place + N - 1) % N];
    for (size_t i = 0; i < L; i++) bad |= buf[(place + i) % N] ^ msgs[7][i];
    if (bad || page.desc[1] != (r->way->alone ? place : behind)) die("sent wrong by", r->name, bad);
}
static void check_out(const struct row *r)
{
    if (memcmp(page.out, msgs[7], 4 * L)) die("received wrong by", r->name, 0);
}

static void start_dword(const struct row *r)
{
    start_round(r);
    r->way->begun();
}

#define EACH_WAY for (const struct way *w = ways; w; w = w->next)
static int measured(const struct way *w, size_t l) { return !w->only || w->only == l; }
static const size_t sizes[] = {1024, 16384}, lengths[] = {2, 16, 256};
enum { SIZES = sizeof sizes / sizeof *sizes, LENGTHS = sizeof lengths / sizeof *lengths };

static void add_rounds(size_t n, size_t l)
{
    size_t k = n / l < 512 ? 512 : n / l; // whole rounds: both are powers of two
    EACH_WAY if (measured(w, l)) add_row((struct row){"send", w->name, n, l, k, n / l, w->send, start_round, 0, w, 0});
    EACH_WAY if (measured(w, l)) add_row((struct row){"receive", w->name, n, l, k, n / l, w->receive, start_full, check_last, w, 0});
    EACH_WAY if (measured(w, l)) add_row((struct row){"turn", w->name, n, l, k, n / l, w->turn, start_round, 0, w, 0});
}
void check_ways(void)
{
    for (int a = 0; a < SIZES; a++) for (int b = 0; b < LENGTHS; b++) EACH_WAY {
        N = sizes[a];
        L = lengths[b];
        if (!measured(w, L) || !asked("send", w->name)) continue;
        start_round(&(struct row){.way = w});
        uint32_t bad = w->check(4 * N / L);
        if (bad) die("check", w->name, bad);
    }
}

// left: an odd number, so that the place is odd too.
static const struct spot { const char *send, *receive; size_t left; } spots[] = {
    {"send_straight", "receive_straight", 895},
    {"send_around", "receive_around", 127},
    {"send_one_left", "receive_one_left", 1},
};
enum { SPOTS = sizeof spots / sizeof *spots };
static void add_places(size_t n, const struct spot *s)
{
    EACH_WAY {
        if (s->left < 256 && w->alone) continue;
        add_row((struct row){s->send, w->name, n, 256, 512, 8, w->send_there, start_there, check_ring, w, s->left});
    }
    EACH_WAY {
        if (s->left < 256 && w->alone) continue;
        add_row((struct row){s->receive, w->name, n, 256, 512, 8, w->receive_there, start_pending, check_out, w, s->left});
    }
}

void add_channel_rows(void)
{
    for (int a = 0; a < SIZES; a++) for (int b = 0; b < LENGTHS; b++) add_rounds(sizes[a], lengths[b]);
    for (int a = 0; a < SIZES; a++) for (int b = 0; b < SPOTS; b++) add_places(sizes[a], spots + b);
    EACH_WAY add_row((struct row){"store", w->name, 1024, 16, 1600, 160, w->store, start_dword, 0, w, 0});
    EACH_WAY add_row((struct row){"copy", w->name, 1024, 16, 1500, 150, w->copy, start_dword, 0, w, 0});
}
