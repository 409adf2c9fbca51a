/*
 * Records that are rewritten while they are read (records.c) or written
 * (record_writes.c): what the two have in common.
 */
#ifndef RECORDS_H
#define RECORDS_H

#include "hostile.h"

enum { MARK = 0x55 }; /* each byte of an output that nobody wrote */

/* Whether these are whole messages: direction 0 or 1, L 1 to 256, a header that agrees. */
int whole_messages(const uint32_t *at, size_t len);

/* So many dwords as a file has them, in at most room bytes; and so many bytes as
 * dwords, at most room. How many there are, or NOT where it cannot be. */
#define NOT SIZE_MAX
size_t encoded(const uint32_t *at, size_t len, uint8_t *to, size_t room);
size_t decoded(const uint8_t *at, size_t len, uint32_t *to, size_t room);

/* A complaint where these bytes are not all marks. */
const char *marked(const void *at, size_t bytes, const char *where);

#endif /* RECORDS_H */
