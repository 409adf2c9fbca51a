/*
 * A wall whose table, message, descriptor or shared words are rewritten while a
 * call runs: what its replies (walls.c) and its sends (wall_sends.c) have in common.
 */
#ifndef WALLS_H
#define WALLS_H

#include "hostile.h"

enum { RECORDS = 6, HALVES = 5 * RECORDS, LENGTH = 4, LAST = 99, NOBODYS = 2000 };

/* Places of a record's 16-bit words. */
enum { OPEN = 0, ACTION = 2, COUNT = 3 };

extern struct guc_record *table, was[RECORDS]; /* the first lent(), and what it holds before a call */
extern struct guc_wall *shared;                /* lent() */

/* Six requests, of which four have fences that are alike in the low eight bits. */
void lay_table(void);
void lay_free(unsigned k);

/* Two words of record k from one on, open and fence say, have one of two faces. */
void rewrite(unsigned k, unsigned from, uint32_t a_low, uint32_t a_high, uint32_t b_low,
	     uint32_t b_high);

/* The same of last and N, and of HEAD, TAIL and STATUS; STATUS may have one face. */
void rewrite_shared(uint32_t a_n, uint32_t b_last, uint32_t b_n);
void rewrite_descriptor(uint32_t head, uint32_t tail, uint32_t status);

/* Of a scene: before a call, an outcome, and the outcomes of memory that stands still. */
void reset_wall(void);
void keep(struct guc_wall_answer a);
void listen(void);
const char *judge_wall(void);

#endif /* WALLS_H */
