// The record that is written and read back: as a run of L dwords, as the file that it must be, and where what comes out goes.
#ifndef RECORD_H
#define RECORD_H
#include "baseline.h"

enum { MOST_DWORDS = 1 << 20, MOST_BYTES = 5 * MOST_DWORDS };
struct record {
    uint32_t run[MOST_DWORDS], back[MOST_BYTES]; // back has as many dwords as the file may have bytes
    uint8_t file[MOST_BYTES], out[MOST_BYTES];
    size_t bytes; // of the file
};
extern struct record record;

// What a write and a read of all of it must answer.
static inline uint32_t all_written(struct recorded r) { return r.code | r.at | (r.written ^ record.bytes); }
static inline uint32_t all_read(struct recorded r, size_t dwords)
{
    return r.code | r.at | (r.written ^ dwords) | (r.took ^ record.bytes);
}
#endif
