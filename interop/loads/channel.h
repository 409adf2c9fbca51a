/*
 * The memory that the channel's calls are lent: of whole calls and looks
 * (wholes.c), of moves all at once (halves.c) and of the other steps (steps.c).
 */
#ifndef CHANNEL_H
#define CHANNEL_H

#include "loads.h"

#define N 1024u
#define MOST_N 16384u

/* Places of the words of a side that makes steps. The header names own, len and
 * moved alone; the rest is the archive's own. */
enum { AT_N = 0, AT_OWN = 1, AT_LEN = 2, AT_MOVED = 3, AT_COPY = 4 };

extern struct guc_sender sender;
extern struct guc_receiver receiver;
extern struct guc_whole_sender whole_sender;
extern struct guc_whole_receiver whole_receiver;
extern struct guc_descriptor desc;
extern uint32_t msg[GUC_MESSAGE_DWORDS], out[GUC_MESSAGE_DWORDS];
extern uint32_t *const ring; /* with dwords before and behind it that no call may touch */
extern size_t n, msg_len, out_len;
extern uint32_t ring_size; /* N; in some copies MOST_N */

/* A channel with all sides at own and a message of len, pending or to be sent. */
void lay(uint32_t own, uint32_t len, int pending);

/* A call that only prepares another must be accepted. */
void must(uint32_t code);

/* Names for the table; of the ring the message at own, and everything else. */
void lent_state(const uint32_t *w);
void lent_two(const uint32_t *n_of, const uint32_t *own_of);
void lent_desc(void);
void lent_ring(uint32_t own, uint32_t len);
void lent_ring_next(uint32_t next);                 /* or the dword that is moved next */
void lent_ring_left(uint32_t first, uint32_t left); /* or those that are left */
void lent_message(void);

#endif /* CHANNEL_H */
