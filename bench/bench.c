// Measures archives of libguc against plain C. `bench time` prints "what N dwords name ns" (medians of interleaved blocks);
// `bench count` runs each row once, for instruction counting (see run). The rows themselves are in files of their own.
// Two more words choose: rows by what they are and ways by how they do it, each a list with commas (`send,receive two,runs`).
#define _GNU_SOURCE
#include "bench.h"
#include <stdio.h>
#include <stdlib.h>
#include <string.h>
#include <time.h>

size_t N, L;
struct way *ways;
struct reader *readers;
struct keeper *keepers;
struct recorder *recorders;
static const char *whats = "", *hows = "";
enum { ROWS = 1000, LONG = 1 << 16 }; // calls of a block that is long
static struct row rows[ROWS];
static double times[ROWS][SAMPLES];
static size_t count_of_rows, taken[ROWS]; // samples of each

void die(const char *what, const char *name, uint32_t code)
{
    fprintf(stderr, "bench: %s %s at N = %zu, %zu dwords: %u\n", what, name, N, L, code);
    exit(1);
}

void enlist(struct way *w)
{
    struct way **end = &ways;
    while (*end) end = &(*end)->next;
    *end = w;
}
void enlist_reader(struct reader *r)
{
    struct reader **end = &readers;
    while (*end) end = &(*end)->next;
    *end = r;
}
void enlist_keeper(struct keeper *w)
{
    struct keeper **end = &keepers;
    while (*end) end = &(*end)->next;
    *end = w;
}
void enlist_recorder(struct recorder *w)
{
    struct recorder **end = &recorders;
    while (*end) end = &(*end)->next;
    *end = w;
}

static int in_list(const char *list, const char *word)
{
    size_t n = strlen(word);
    if (!*list) return 1;
    for (const char *at = list; at; at = strchr(at, ',')) {
        at += *at == ',';
        if (!strncmp(at, word, n) && (at[n] == ',' || !at[n])) return 1;
    }
    return 0;
}
int asked(const char *what, const char *name) { return in_list(whats, what) && in_list(hows, strchr(name, ':') + 1); }
void add_row(struct row r)
{
    if (!r.run || !asked(r.what, r.name)) return;
    if (count_of_rows == ROWS) die("too many rows", r.what, 0);
    rows[count_of_rows++] = r;
}

static double now(void)
{
    struct timespec t;
    clock_gettime(CLOCK_MONOTONIC, &t);
    return t.tv_sec * 1e9 + t.tv_nsec;
}
static void lay(const struct row *r)
{
    N = r->n;
    L = r->l;
    r->start(r);
}
static void time_rows(void)
{
    for (int s = 0; s < SAMPLES; s++) {
        for (size_t i = 0; i < count_of_rows; i++) {
            const struct row *r = rows + i;
            if (r->k > LONG && s % SELDOM) continue;
            lay(r);
            double t = now();
            uint32_t bad = r->run(r->k);
            times[i][taken[i]++] = (now() - t) / r->k;
            if (bad) die(r->what, r->name, bad);
            if (r->after) r->after(r);
        }
    }
}
// The stack below the last 64 bytes of a page, where struct page has nothing.
__attribute__((noinline)) static void settled(void (*f)(void))
{
    volatile char *pad = __builtin_alloca(((uintptr_t)__builtin_frame_address(0) & 4095) + 64);
    *pad = 0;
    f();
    *pad = 1;
}
static int less(const void *a, const void *b)
{
    double x = *(const double *)a, y = *(const double *)b;
    return (x > y) - (x < y);
}
static void say_times(void)
{
    for (size_t i = 0; i < count_of_rows; i++) {
        const struct row *r = rows + i;
        qsort(times[i], taken[i], sizeof *times[i], less);
        printf("%s %zu %zu %s %.2f\n", r->what, r->n, r->l, r->name, times[i][taken[i] / 2]);
    }
}

// The counter writes a record at each call of this: one before and one after every row's block.
__attribute__((noinline)) void bench_mark(void);
void bench_mark(void) { __asm__ volatile("" ::: "memory"); }
static void count_rows(void)
{
    for (size_t i = 0; i < count_of_rows; i++) {
        const struct row *r = rows + i;
        lay(r);
        bench_mark();
        uint32_t bad = r->run(r->counted);
        bench_mark();
        if (bad) die(r->what, r->name, bad);
        if (r->after) r->after(r);
        printf("%s %zu %zu %s %zu\n", r->what, r->n, r->l, r->name, r->counted);
    }
}

int main(int argc, char **argv)
{
    int time = argc > 1 && !strcmp(argv[1], "time");
    if ((!time && (argc < 2 || strcmp(argv[1], "count"))) || argc > 4) {
        fputs("usage: bench time|count [ROWS [WAYS]]\n", stderr);
        return 2;
    }
    if (argc > 2) whats = argv[2];
    if (argc > 3) hows = argv[3];
    add_channel_rows();
    add_firmware_rows();
    add_wall_rows();
    add_record_rows();
    if (!time) { count_rows(); return 0; }
    check_ways();
    check_walls();
    check_records();
    settled(time_rows);
    say_times();
    return 0;
}
