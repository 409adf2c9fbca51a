// The plain C's ways to send and to receive, its reader, its wall and its records: compiled once for each way of compiling it, which is
// WHO, and linked with it alone.
#include "baseline.h"
#include "blocks.h"
#include "firmware.h"
#include "record.h"
#include "wall.h"
#ifndef WHO
#define WHO "plain"
#endif
#define RECEIVED struct received

#define TX (&page.sender.ring)
#define RX (&page.receiver.ring)
static void start(uint32_t at) { *TX = *RX = (struct ring){page.desc, buf, N, at}; }

#define BLOCKS(v, SEND, RECEIVE) ROUND_BLOCKS(v, SEND, RECEIVE) PLACE_BLOCKS(v, SEND, RECEIVE, TX->own, RX->own)
BLOCKS(wrap, wrap_send(TX, m, L), wrap_receive(RX, page.out, 256))
BLOCKS(runs, runs_send(TX, m, L), runs_receive(RX, page.out, 256))
BLOCKS(plain, plain_send(TX, m, L), plain_receive(RX, page.out, L))
static struct way plain_ways[] = {
    {.name = WHO ":wrap", .start = start, ROUNDS_OF(wrap), PLACES_OF(wrap)},
    {.name = WHO ":runs", .start = start, ROUNDS_OF(runs), PLACES_OF(runs)},
    {.name = WHO ":plain", .start = start, ROUNDS_OF(plain), PLACES_OF(plain), .alone = 1},
};

static uint32_t locate(void)
{
    struct css_parts p;
    uint32_t c = css_read(image, IMAGE, &p);
    return image_parts(c, p.truncated, p.ucode_start, p.ucode_len);
}
static uint32_t copy(void)
{
    size_t done = 0;
    uint32_t c = css_copy(image, IMAGE, room, IMAGE, &done);
    return image_parts(c, 0, 128, done);
}
static uint32_t find(const struct directory *d)
{
    size_t at = 0, n = 0;
    uint32_t c = cpd_find(d->blob, d->bytes, d->name, d->name_len, &at, &n);
    return entry_part(d, c, at, n);
}
READ_BLOCK(locate_block, locate()) READ_BLOCK(copy_block, copy())
READ_BLOCK(few_block, find(&few)) READ_BLOCK(many_block, find(&many)) READ_BLOCK(alike_block, find(&alike))
// Judging and finding are one pass for it.
static struct reader plain_reader = {WHO ":reader", {locate_block, locate_block, copy_block, few_block, many_block, alike_block}, 0};

static struct told send_one(size_t records, const uint32_t *m, size_t len, uint32_t reply)
{
    return wall_send(&requests.shared, requests.table, records, TX, m, len, reply);
}
static struct told reply_one(size_t records, const uint32_t *m, size_t len) { return wall_reply(&requests.shared, requests.table, records, m, len); }
WALL_BLOCKS(send_one, reply_one)
static struct keeper plain_keeper = {WHO ":wall", start, wall_send_block, reply_block, send_one, reply_one, 0};

RECORD_BLOCKS(record_write, record_read)
static struct recorder plain_recorder = {WHO ":record", record_write_block, record_read_block, record_write, record_read, 0};

__attribute__((constructor)) static void enlist_plain(void)
{
    for (size_t i = 0; i < sizeof plain_ways / sizeof *plain_ways; i++) enlist(plain_ways + i);
    enlist_reader(&plain_reader);
    enlist_keeper(&plain_keeper);
    enlist_recorder(&plain_recorder);
}
