/*
 * The scenes: messages through a channel by one kind of calls, calls that must be
 * refused, firmware, a wall of requests, and a record of messages.
 */
#ifndef SCENES_H
#define SCENES_H

#include "guc.h"

/*
 * One kind of side and calls. send sends the message that the book says is next,
 * and receive receives into lent.out; both keep the book where they are accepted.
 * sides holds what the sides show against the book, between calls.
 */
struct kind {
	uint32_t (*open)(uint32_t n);
	uint32_t (*send)(void);
	struct guc_received (*receive)(void);
	void (*sides)(void);
};
extern const struct kind whole_calls, whole_sides, stepped_calls;

/* The opening and the look at sides of 260 words, which two kinds share. */
uint32_t open_sides(uint32_t n);
void idle_sides(void);

/* So many messages through a channel of n dwords. */
void traffic(const struct kind *kind, uint32_t n, uint32_t messages);

void refused_calls(void);
void firmware_calls(void);
void wall_calls(void);

/* Keeps some of the messages, by their number, after they were sent or received; at
 * the end the record of them is written and read back. */
void keep_message(uint32_t direction, uint32_t k, const uint32_t *message);
void record_calls(void);
extern uint64_t total_recorded, recorded_bytes;

#endif /* SCENES_H */
