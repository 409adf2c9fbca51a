/*
 * Between the two halves of the engine: engine.c runs and counts, touches.c
 * has the pages, what rewrites between touches, and what happens outside them.
 */
#ifndef ENGINE_H
#define ENGINE_H

#include "hostile.h"

uint64_t next_random(uint64_t *x);

/* An address in the block whose words are rewritten. */
const volatile void *rewritten_block(void);

/* Takes the faults; a fault outside what was lent ends the program with 1. */
void touches_catch(void);

/*
 * From begin to end each touch of the block is followed by other faces, with
 * chance 1 in 2 to the power of rare; touches_end says how often they changed.
 */
void touches_begin(uint64_t *seed, unsigned rare);
unsigned long touches_end(void);

#endif /* ENGINE_H */
