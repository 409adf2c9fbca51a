// The library's ways to send and to receive, its reader, its wall and its records: compiled once for each archive, which is WHO, and linked
// with it alone.
#include "blocks.h"
#include "firmware.h"
#include "guc.h"
#include "record.h"
#include "wall.h"
#ifndef WHO
#define WHO "guc"
#endif
#define RECEIVED struct guc_received
#define DESC ((struct guc_descriptor *)page.desc)
#define SENDER ((struct guc_sender *)&page.sender)
#define RECEIVER ((struct guc_receiver *)&page.receiver)
#define WHOLE_SENDER ((struct guc_whole_sender *)&page.sender)
#define WHOLE_RECEIVER ((struct guc_whole_receiver *)&page.receiver)

// Where own offset and moved dwords lie in a side.
enum { OWN = 1, MOVED = 3 };
static void words_start(uint32_t at)
{
    if (guc_open(SENDER, RECEIVER, DESC, buf, N)) die("open", WHO, 1);
    page.sender.words[OWN] = page.receiver.words[OWN] = at;
}
static void two_start(uint32_t at)
{
    if (guc_whole_open(WHOLE_SENDER, WHOLE_RECEIVER, DESC, buf, N)) die("open", WHO, 2);
    page.sender.words[OWN] = page.receiver.words[OWN] = at;
}

static uint32_t step_send(const uint32_t *m)
{
    uint32_t c = guc_send_look(SENDER, DESC, buf, N, m, L);
    for (size_t i = 0; i < L; i++) c |= guc_send_store(SENDER, DESC, buf, N);
    return c | guc_send_publish(SENDER, DESC, buf, N);
}
static struct guc_received step_receive(void)
{
    uint32_t c = guc_receive_look(RECEIVER, DESC, buf, N);
    for (size_t i = 1; i < L; i++) c |= guc_receive_copy(RECEIVER, DESC, buf, N);
    struct guc_received a = guc_receive_publish(RECEIVER, DESC, buf, N, page.out, 256);
    a.code |= c;
    return a;
}
// Single dwords of a message of L: when all are moved, none is. The header comes with a receive's look.
static void words_begun(void)
{
    uint32_t bad = guc_send(SENDER, DESC, buf, N, msgs[0], L);
    bad |= guc_receive_look(RECEIVER, DESC, buf, N);
    bad |= guc_send_look(SENDER, DESC, buf, N, msgs[1], L);
    if (bad) die("look", WHO, bad);
}
__attribute__((noinline)) static uint32_t words_store(size_t k)
{
    uint32_t bad = 0;
    for (size_t i = 0; i < k; i += L) {
        page.sender.words[MOVED] = 0;
        for (size_t j = 0; j < L; j++) bad |= guc_send_store(SENDER, DESC, buf, N);
    }
    return bad;
}
__attribute__((noinline)) static uint32_t words_copy(size_t k)
{
    uint32_t bad = 0;
    for (size_t i = 0; i < k; i += L - 1) {
        page.receiver.words[MOVED] = 1;
        for (size_t j = 1; j < L; j++) bad |= guc_receive_copy(RECEIVER, DESC, buf, N);
    }
    return bad;
}

#define WORDS guc_send(SENDER, DESC, buf, N, m, L), guc_receive(RECEIVER, DESC, buf, N, page.out, 256)
#define TWO guc_whole_send(WHOLE_SENDER, DESC, buf, N, m, L), guc_whole_receive(WHOLE_RECEIVER, DESC, buf, N, page.out, 256)
// so that the two calls become two arguments
#define ROUNDS_BY(v, ...) ROUND_BLOCKS(v, __VA_ARGS__)
#define PLACES_BY(v, ...) PLACE_BLOCKS(v, __VA_ARGS__)
ROUNDS_BY(words, WORDS)
PLACES_BY(words, WORDS, page.sender.words[OWN], page.receiver.words[OWN])
ROUNDS_BY(two, TWO)
PLACES_BY(two, TWO, page.sender.words[OWN], page.receiver.words[OWN])
ROUNDS_BY(steps, step_send(m), step_receive())

static struct way library_ways[] = {
    {.name = WHO ":two", .start = two_start, ROUNDS_OF(two), PLACES_OF(two)},
    {.name = WHO ":words", .start = words_start, ROUNDS_OF(words), PLACES_OF(words)},
    {.name = WHO ":steps", .start = words_start, ROUNDS_OF(steps), .begun = words_begun, .store = words_store, .copy = words_copy, .only = 16},
};

static uint32_t all_send(const uint32_t *m)
{
    uint32_t c = guc_send_look(SENDER, DESC, buf, N, m, L);
    c |= guc_send_store_all(SENDER, DESC, buf, N);
    return c | guc_send_publish(SENDER, DESC, buf, N);
}
static struct guc_received all_receive(void)
{
    uint32_t c = guc_receive_look(RECEIVER, DESC, buf, N);
    c |= guc_receive_copy_all(RECEIVER, DESC, buf, N);
    struct guc_received a = guc_receive_publish(RECEIVER, DESC, buf, N, page.out, 256);
    a.code |= c;
    return a;
}
ROUNDS_BY(all, all_send(m), all_receive())
static struct way all_way = {.name = WHO ":all", .start = words_start, ROUNDS_OF(all)};

static uint32_t judge(void)
{
    struct guc_css a = guc_css_answer(image, IMAGE);
    struct guc_part p = guc_css_part(image, IMAGE, GUC_PART_UCODE);
    return image_parts(a.code | p.code, a.truncated, p.start, p.len);
}
static uint32_t locate(void)
{
    struct guc_part p = guc_css_part(image, IMAGE, GUC_PART_UCODE);
    return image_parts(p.code, 0, p.start, p.len);
}
static uint32_t copy(void)
{
    struct guc_copied c = guc_css_copy(image, IMAGE, GUC_PART_UCODE, room, IMAGE);
    return image_parts(c.code, 0, 128, c.len);
}
static uint32_t find(const struct directory *d)
{
    struct guc_part p = guc_cpd_part(d->blob, d->bytes, d->name, d->name_len);
    return entry_part(d, p.code, p.start, p.len);
}
READ_BLOCK(judge_block, judge()) READ_BLOCK(locate_block, locate()) READ_BLOCK(copy_block, copy())
READ_BLOCK(few_block, find(&few)) READ_BLOCK(many_block, find(&many)) READ_BLOCK(alike_block, find(&alike))
static struct reader library_reader = {WHO ":reader", {judge_block, locate_block, copy_block, few_block, many_block, alike_block}, 0};

#define WALL ((struct guc_wall *)&requests.shared)
#define TABLE ((struct guc_record *)requests.table)
static struct told told(struct guc_wall_answer a) { return (struct told){a.code, a.kind, a.fence, a.action, a.count}; }
static struct told send_one(size_t records, const uint32_t *m, size_t len, uint32_t reply)
{
    return told(guc_wall_send(WALL, TABLE, records, SENDER, DESC, buf, N, m, len, reply));
}
static struct told reply_one(size_t records, const uint32_t *m, size_t len) { return told(guc_wall_reply(WALL, TABLE, records, m, len)); }
WALL_BLOCKS(send_one, reply_one)
static struct keeper library_keeper = {WHO ":wall", words_start, wall_send_block, reply_block, send_one, reply_one, 0};

static struct recorded write_one(const uint32_t *run, size_t len, uint8_t *file, size_t most)
{
    struct guc_written w = guc_record_write(run, len, file, most);
    return (struct recorded){w.code, w.fault, w.at, w.written, 0};
}
static struct recorded read_one(const uint8_t *file, size_t len, uint32_t *run, size_t most)
{
    struct guc_readback r = guc_record_read(file, len, run, most);
    return (struct recorded){r.code, r.fault, r.at, r.written, r.took};
}
RECORD_BLOCKS(write_one, read_one)
static struct recorder library_recorder = {WHO ":record", record_write_block, record_read_block, write_one, read_one, 0};

__attribute__((constructor)) static void enlist_library(void)
{
    for (size_t i = 0; i < sizeof library_ways / sizeof *library_ways; i++) enlist(library_ways + i);
    enlist(&all_way);
    enlist_reader(&library_reader);
    enlist_keeper(&library_keeper);
    enlist_recorder(&library_recorder);
}
