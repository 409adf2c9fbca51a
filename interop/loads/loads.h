/*
 * The driver of the load counter: it lays memory, says by name which bytes are
 * lent to the next call, and makes that call between two stores to a mark, so
 * that check.py finds the call in the trace. What may be loaded stands in the
 * table, not here.
 */
#ifndef LOADS_H
#define LOADS_H

#include "guc.h"

/* A call begins: its function, the number it must answer, what is special. */
void calling(const char *function, uint32_t answer, const char *note);

/* Bytes that are lent to it; a name may come twice. */
void lent(const char *word, const void *at, size_t bytes);

/* Between these two lies the call, and nothing else. */
void begin(void);
void end(uint32_t answer);

/* Whole calls, their looks, and whole calls of sides that make no others. */
enum how { WHOLE, LOOK, TWO };

/* The calls: sends and receives, and the others. */
void send_calls(enum how how);
void receive_calls(enum how how);
void copy_calls(void);
void half_calls(void);
void step_calls(void);
void wall_calls(void);
void record_calls(void);
void blob_calls(void);

#endif /* LOADS_H */
