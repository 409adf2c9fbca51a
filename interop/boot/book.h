/*
 * The bookkeeping: all memory that is lent to the library, the messages by their
 * number, and what ring and descriptor must hold, worked out without the library.
 */
#ifndef BOOK_H
#define BOOK_H

#include "guc.h"

enum {
	SMALL_RING = GUC_RING_MIN,
	LARGE_RING = 5 * GUC_RING_UNIT, /* no power of two */
	LATER = 8,
	GUARD = 8 /* dwords between what is lent, which nobody may touch */
};

/* Everything that is lent, with guards around each piece. */
struct lent {
	uint32_t guard_0[GUARD];
	struct guc_sender sender;
	uint32_t guard_1[GUARD];
	struct guc_receiver receiver;
	uint32_t guard_2[GUARD];
	struct guc_whole_sender whole_sender;
	uint32_t guard_3[GUARD];
	struct guc_whole_receiver whole_receiver;
	uint32_t guard_4[GUARD];
	struct guc_descriptor desc;
	uint32_t guard_5[GUARD];
	uint32_t message[GUC_MESSAGE_DWORDS];
	uint32_t guard_6[GUARD];
	uint32_t out[GUC_MESSAGE_DWORDS];
	uint32_t guard_7[GUARD];
	_Alignas(8) uint32_t ring[LARGE_RING + GUARD]; /* as many as the book says, then a guard */
};
extern struct lent lent;

struct book {
	uint32_t n;              /* dwords of the ring */
	uint32_t head, tail;     /* what the descriptor must say */
	uint32_t status;         /* the same */
	uint32_t sent, received; /* messages, counted; their numbers are these */
};
extern struct book book;

/* Messages, dwords, runs of the ring that were copied, and wrong things, in all. */
extern uint64_t total_messages, total_dwords, runs_copied, wrong;

/* What is not so is counted, and the first few are said. */
#define EXPECT(so) ((so) ? (void)0 : unexpected(__FILE__, __LINE__))
void unexpected(const char *file, int line);

/* Sets the guards and fills the ring, once. */
void book_start(void);

/* A channel of n dwords was opened: empty, its descriptor all zeros. What the
 * library must neither judge nor change gets a mark. */
void book_open(uint32_t n);

/* Message number k: its length, one of its dwords, and the whole of it written
 * and looked for. All lengths come up in each 255 numbers. */
uint32_t message_length(uint32_t k);
uint32_t message_dword(uint32_t k, uint32_t i);
void write_message(uint32_t k, uint32_t *to);
void check_message(uint32_t k, const uint32_t *at);

/* Dwords free for the next message to send. */
uint32_t book_free(void);

/* Of the next message the dwords from one place up to another are stored; it is
 * sent; the next one is received. */
void book_store(uint32_t from, uint32_t to);
void book_sent(void);
void book_received(void);

/* A dword that nobody sent lies in the ring. */
void book_put(uint32_t at, uint32_t dword);

/* Ring, descriptor and guards are as the book says. The dwords of a large ring are
 * looked at every LATER times only: what was wrong there is still wrong then. */
void check_lent(void);

/* The output is marked, and later holds the message received last and the mark
 * behind it; or nothing but the mark. */
void mark_out(void);
void check_out(uint32_t k);
void check_out_unchanged(void);

#endif /* BOOK_H */
