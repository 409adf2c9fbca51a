/*
 * Two worlds that are alike, for one thread: a call of guc.h is made on the one
 * and its live twin on the other, and they must stay alike. Each trial lays
 * another state, descriptor, ring and call; refused ones are among them.
 */
#ifndef WORLDS_H
#define WORLDS_H

#include "live.h"

enum call {
	WHOLE_SEND,
	WHOLE_RECEIVE,
	SEND,
	SEND_LOOK,
	SEND_STORE,
	SEND_STORE_ALL,
	SEND_PUBLISH,
	WALL_SEND,
	RECEIVE,
	RECEIVE_LOOK,
	RECEIVE_COPY,
	RECEIVE_COPY_ALL,
	RECEIVE_PUBLISH,
	CALLS
};

#define CODES 36
#define RECORDS 4u
#define RING_ROOM (17u * 1024) /* dwords: more than a ring may have */
#define OUT_ROOM 300u

/* What a call is lent and may change. Each part ends its own lent pages. */
struct world {
	struct guc_descriptor *desc;
	struct guc_whole_sender *whole_sender;
	struct guc_whole_receiver *whole_receiver;
	struct guc_sender *sender;
	struct guc_receiver *receiver;
	struct guc_wall *wall;
	struct guc_record *table; /* RECORDS of them */
	uint32_t *room_end; /* RING_ROOM dwords before it; a ring ends there */
	uint32_t *out_end;  /* OUT_ROOM dwords before it; an output ends there */
};

/* The call of a trial, but for its world. */
struct trial {
	enum call call;
	size_t n, msg_len, out_len, records;
	const uint32_t *msg;
	uint32_t reply_dwords;
};

struct walk {
	struct world plain, live, saved;
	struct trial trial;
	uint64_t x;
	size_t n;      /* of the channel as opened */
	int two_words; /* its sides */
	int undo;      /* the trial's world was disturbed */
	uint32_t *msg_end;
	unsigned long met[CALLS][CODES]; /* answers by call */
};

static inline uint32_t *ring_of(const struct world *w, size_t n)
{
	return w->room_end - n;
}

static inline uint32_t *out_of(const struct world *w, size_t len)
{
	return w->out_end - len;
}

/* A store or a copy. */
static inline int is_move(enum call c)
{
	return c == SEND_STORE || c == SEND_STORE_ALL || c == RECEIVE_COPY || c == RECEIVE_COPY_ALL;
}

const char *call_name(enum call call);

/* A wall's table, for a trial that sends through it: both worlds' alike (walls.c). */
void lay_wall(struct walk *k, uint64_t r);

/* What a wall's send answers, all of it in the two numbers that other calls answer. */
static inline struct guc_received wall_answer(struct guc_wall_answer a)
{
	struct guc_received got = { a.code, a.fence };

	if (a.kind || a.action || a.count)
		bad("a wall's send answered kind %u, action %u, count %u", a.kind, a.action, a.count);
	return got;
}

void begin_walk(struct walk *k, uint64_t seed);
void lay_trial(struct walk *k);
struct guc_received plain_call(const struct trial *t, struct world *w);

/* Complains of any difference; then the next trial can be laid. */
void end_trial(struct walk *k, struct guc_received plain, struct guc_received live);

/* Complains of an answer that the header names and that never came. */
void end_walk(const struct walk *k);

#endif /* WORLDS_H */
