/*
 * Tests of guc_live.h: what their parts share. It does not include guc_live.h,
 * since a part may first put functions of its own in place of its macros.
 */
#ifndef LIVE_H
#define LIVE_H

#include "guc.h"

#define RING 1024u /* dwords of a ring between threads: often full, often empty */
#define PAGE 4096u

/* The parts. Each prints lines; what was wrong is counted by bad(). */
void same(uint64_t seed, unsigned long calls);
void order(uint64_t seed, unsigned long calls);
void pairs(uint64_t seed, unsigned long messages);
void siege(uint64_t seed, unsigned long calls);

/* Complains as printf does; the first few are printed. */
void bad(const char *format, ...) __attribute__((format(printf, 1, 2)));
unsigned long bads(void);

/* What runs, for complaints. */
extern const char *running;

/* First of all: from now on a touch of memory that was not lent ends the program. */
void prepare(void);

uint64_t next_random(uint64_t *x);
double seconds(void);

/* Memory whose last byte lies before a page that can't be touched, and whose
 * first page lies behind one. */
void *lent(size_t bytes);

/* Makes whole pages from start on touchable, or not. */
void allow(void *start, size_t bytes, int touchable);

/* A descriptor with a page's end between its three words and the reserved ones,
 * so that these can be made untouchable by themselves, or all 16. */
struct guc_descriptor *lent_descriptor(void);
void allow_reserved(struct guc_descriptor *desc, int touchable);
void allow_words(struct guc_descriptor *desc, int touchable);

int well_formed(uint32_t header, uint32_t word);

/* Message number i: 2 to 256 dwords, each of them different for another i. */
size_t make_message(uint64_t seed, uint64_t i, uint32_t *msg);

/* Processors that the program may use, and a thread on the first or the next. */
unsigned processors(void);
void on_processor(unsigned which);

/* Waits a little for another thread; tried counts the waits in a row. */
void wait_a_little(unsigned tried);

#endif /* LIVE_H */
