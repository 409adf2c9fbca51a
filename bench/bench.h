// What the files of the benchmark share: ways to send and to receive, readers of firmware, keepers of a wall, recorders, rows, and the
// memory they all run on.
#ifndef BENCH_H
#define BENCH_H
#include "baseline.h"

enum { SAMPLES = 801, SELDOM = 16 };  // blocks of each row, interleaved with all others; of long ones a sixteenth of that
typedef uint32_t (*block)(size_t k);  // makes k calls; answers 0, or what went wrong
extern size_t N, L;                   // of the row under way; 0 where it has none

// The channel's memory (channel.c). What every call touches lies in one page, in the same place for all ways: where a store and a load
// behind it agree in the last twelve bits of their addresses, processors wait, and a row could take half as long again.
union side { struct ring ring; uint32_t words[272]; };
struct page {
    uint32_t desc[16];
    union side sender, receiver;
    uint32_t out[256];
};
extern struct page page;
extern uint32_t buf[16384], msgs[8][256];
extern uint32_t place, behind; // where every message starts and where the next one would, in rows that say so

// One way to send and to receive. name is who:how. A row whose block is 0 it does not have.
struct way {
    const char *name;
    void (*start)(uint32_t at);           // its sides made for N, idle, own offsets at that
    block send, receive, turn, check;     // round the ring; turn: both after one another; check: the same, compared
    block send_there, receive_there;      // every message at one place
    void (*begun)(void);                  // after start: a send and a receive under way, for the two below
    block store, copy;                    // one dword in steps
    size_t only;                          // the one length that it is measured at, 0: all of them
    int alone;                            // 1: what it sends lies elsewhere, no other reads it, and it knows no end of the ring
    struct way *next;
};
// A reader of firmware images and directories, by the rows of firmware.c.
enum { JUDGE, LOCATE, COPY, FEW, MANY, ALIKE, READS };
struct reader { const char *name; block read[READS]; struct reader *next; };
// A keeper of a wall of requests: a row's sends and busy replies at a table of L records, and one call at so many of them. start: its
// sender is made for a ring of N, idle, its own offset at that.
struct keeper {
    const char *name;
    void (*start)(uint32_t at);
    block send, reply;
    struct told (*send_one)(size_t records, const uint32_t *msg, size_t len, uint32_t room);
    struct told (*reply_one)(size_t records, const uint32_t *msg, size_t len);
    struct keeper *next;
};
// A writer and reader of records: blocks of whole records of L dwords, for k dwords in all; and one call.
struct recorder {
    const char *name;
    block write, read;
    struct recorded (*write_one)(const uint32_t *run, size_t len, uint8_t *file, size_t room);
    struct recorded (*read_one)(const uint8_t *file, size_t len, uint32_t *run, size_t room);
    struct recorder *next;
};

// Ways, readers, keepers and recorders enlist themselves before main, so that what is linked is what is measured.
extern struct way *ways;
extern struct reader *readers;
extern struct keeper *keepers;
extern struct recorder *recorders;
void enlist(struct way *w);
void enlist_reader(struct reader *r);
void enlist_keeper(struct keeper *w);
void enlist_recorder(struct recorder *w);

// A row of one way, reader, keeper or recorder: k calls a block in time, counted calls for the instruction counter.
struct row {
    const char *what, *name;
    size_t n, l, k, counted;
    block run;
    void (*start)(const struct row *), (*after)(const struct row *); // laid before each block, compared after it; after may be 0
    const struct way *way;
    size_t left; // dwords from the message's start to the ring's end, in rows that say where it lies
};
void add_row(struct row r); // unless it is not asked for
void add_channel_rows(void);
void add_firmware_rows(void);
void add_wall_rows(void);
void add_record_rows(void);
void check_ways(void); // every message that each way sends and receives, compared
void check_walls(void); // the same calls by every keeper, compared
void check_records(void); // and by every recorder

int asked(const char *what, const char *name);
void die(const char *what, const char *name, uint32_t code);
#endif
