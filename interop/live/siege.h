/*
 * A sender and a receiver while a third thread scribbles: what the two besieged
 * sides (besieged.c) and the third thread (siege.c) share. Included behind the
 * macros, if any, that guc_live.h is to use.
 */
#ifndef SIEGE_H
#define SIEGE_H

#include "kinds.h"

#include <stdatomic.h>

#define CODES 14
#define BIT(code) (1u << (code))

/* The answers that can come: N, message and output are right, and the side fits. */
#define SEND_ANSWERS (BIT(0) | BIT(6) | BIT(7) | BIT(8) | BIT(10))
#define RECEIVE_ANSWERS (BIT(0) | BIT(6) | BIT(7) | BIT(8) | BIT(9) | BIT(11) | BIT(13))

struct siege {
	struct channel ch;
	enum kind kind;
	int ring_too; /* the ring is scribbled over too, not the descriptor's words alone */
	uint64_t seed;
	unsigned long calls;                         /* of each side, at least */
	uint32_t *msg_end, *out;                     /* a message ends there; 256 dwords */
	unsigned long sends[CODES], receives[CODES]; /* by their answer, in this round */
	atomic_uint tail, head;                      /* own offsets of the two sides */
	atomic_uint running;                         /* sides that still do */
	atomic_ulong scribbles;                      /* by the third thread */
};

/* Threads: s->calls calls or more, each judged, or until something is bad. */
void *besieged_sender(void *siege);
void *besieged_receiver(void *siege);

/* Dwords of the third thread, which can be told from others. */
static inline int is_scribbled(uint32_t dword)
{
	return dword >> 16 == 0xBADC || dword >> 16 == 0xCBAD;
}

#endif /* SIEGE_H */
