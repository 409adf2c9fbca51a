/*
 * What the parts of the walk share.
 */
#ifndef WALK_H
#define WALK_H

#include "guc.h"

#include <stdio.h>
#include <stdlib.h>

/* Unlike assert, this stays in whatever NDEBUG says. */
#define CHECK(condition) \
	do { \
		if (!(condition)) { \
			printf("line %d: not so: %s\n", __LINE__, #condition); \
			exit(1); \
		} \
	} while (0)

#define N ((size_t)GUC_RING_MIN)

/* A well-formed message of len dwords, 2 to 256. */
void make_message(uint32_t *msg, size_t len, uint32_t fence);

/* Sides that make whole calls only, moves all at once, sentences. */
void walk_sides(void);

/* A wall of requests. */
void walk_walls(void);

/* A record of messages. */
void walk_records(void);

/* Firmware. */
void walk_blobs(void);

#endif /* WALK_H */
