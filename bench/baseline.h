// What the proved library is measured against: a driver's own C.
#ifndef BASELINE_H
#define BASELINE_H
#include <stddef.h>
#include <stdint.h>

// One side of a channel as a driver keeps it; own is the side's next offset.
struct ring { uint32_t *desc, *buf; size_t n; uint32_t own; };
struct received { uint32_t code; size_t len; };
struct css_parts { uint32_t truncated; size_t ucode_start, ucode_len; };
// A wall's record of a request, what its calls share, and what they answer.
struct request { uint16_t open, fence, action, count, room; };
struct shared { uint16_t last, n; };
struct told { uint32_t code, kind; uint16_t fence, action, count; };
// What writing and reading a record answer: the place or byte that is bad, what was written, and the bytes that a read took for it.
struct recorded { uint32_t code, fault; size_t at, written, took; };

uint32_t wrap_send(struct ring *r, const uint32_t *msg, size_t len);
struct received wrap_receive(struct ring *r, uint32_t *out, size_t room);
uint32_t runs_send(struct ring *r, const uint32_t *msg, size_t len);
struct received runs_receive(struct ring *r, uint32_t *out, size_t room);
uint32_t plain_send(struct ring *r, const uint32_t *msg, size_t len);
struct received plain_receive(struct ring *r, uint32_t *out, size_t len);
struct told wall_send(struct shared *w, struct request *t, size_t records, struct ring *r, const uint32_t *msg, size_t len, uint32_t room);
struct told wall_reply(const struct shared *w, struct request *t, size_t records, const uint32_t *msg, size_t len);
struct recorded record_write(const uint32_t *run, size_t len, uint8_t *file, size_t room);
struct recorded record_read(const uint8_t *file, size_t len, uint32_t *run, size_t room);
uint32_t css_read(const uint8_t *blob, size_t len, struct css_parts *p);
uint32_t css_copy(const uint8_t *blob, size_t len, uint8_t *dst, size_t room, size_t *done);
uint32_t cpd_find(const uint8_t *blob, size_t len, const char *name, size_t name_len, size_t *start, size_t *size);
#endif
