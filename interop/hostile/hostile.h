/*
 * Hostile writers: what the scenes share. A scene lends memory to one call,
 * somebody rewrites words of it while the call runs, and the scene judges what
 * came back.
 */
#ifndef HOSTILE_H
#define HOSTILE_H

#include "guc.h"

/* Lent bytes that are rewritten: they hold one of two faces, put by one store. */
struct word {
	volatile void *at;
	unsigned bytes; /* 1, 4 or 8 */
	unsigned unit;  /* bytes that a call reads at one moment: 1, 2 or 4 */
	uint64_t face[2];
};

struct scene {
	const char *name;
	unsigned variants;          /* each lays other faces */
	void (*lay)(unsigned);      /* lays variant's memory, names its words */
	void (*reset)(void);        /* before each call: undoes the call before */
	void (*call)(void);         /* one call, or the steps of one */
	const char *(*judge)(void); /* 0, or what is wrong */
	int named;                  /* one of the two attacks of the audit */
};

/* Ends with a scene whose name is 0. */
extern const struct scene send_scenes[], receive_scenes[], blob_scenes[], reply_scenes[], wall_send_scenes[];
extern const struct scene record_read_scenes[], record_write_scenes[];

/* The scene that runs. */
extern const struct scene *current;

/* Memory of its own pages that ends where no byte can be touched. */
void *lent(size_t bytes);

/*
 * Names a word of the scene; all of a scene's words lie in one lent() block.
 * rewritten() is for one that is read as a whole.
 */
void rewritten(volatile void *at, unsigned bytes, uint64_t a, uint64_t b);
void rewritten_units(volatile void *at, unsigned bytes, unsigned unit, uint64_t a, uint64_t b);

/* Each word shows one of its faces, bit i of faces for word i. */
void put_faces(unsigned faces);

/*
 * What a call that reads each unit once may have seen: each unit of each word
 * from one of its faces, bit j of choice for unit j; choices() of them.
 */
void put_choice(unsigned choice);
unsigned choices(void);

/* What call and judge leave for the tally. */
extern uint32_t answer; /* the call's number */
extern int showed;      /* 0 or 1: two outcomes that a rewritten word tells apart */

/* Says what is wrong, as printf does. */
const char *complain(const char *format, ...) __attribute__((format(printf, 1, 2)));

/*
 * The channel of sends and receives.
 */
#define N 1024u

/* Places of a side's words: n and own of either kind, the others of one that makes
 * steps. The header names own, len and moved alone; the rest is the archive's own. */
enum { AT_N = 0, AT_OWN = 1, AT_LEN = 2, AT_MOVED = 3, AT_COPY = 4 };

/* A side of each kind; a scene's call uses one of them. */
struct sides {
	struct guc_sender sender;
	struct guc_receiver receiver;
	struct guc_whole_sender whole_sender;
	struct guc_whole_receiver whole_receiver;
};

struct channel {
	struct sides now, was;
	const uint32_t *side; /* the words of the one that is used */
	size_t side_words;
	uint32_t ring_was[N];
	uint32_t out[GUC_MESSAGE_DWORDS + 8];
	struct guc_descriptor *desc; /* lent(), as the next two */
	uint32_t *ring, *msg;
	uint32_t own;   /* own offset before the call */
	size_t len;     /* L of the message at hand */
	uint32_t stuck; /* a step's number after a look of 0 */
};

extern struct channel ch;

/* Idle sides at own, an empty ring of known contents. */
void open_at(uint32_t own);
void reset_channel(void);

/* The side that the call uses. */
void uses(const void *side, size_t bytes);

int well_formed(uint32_t header, uint32_t word);

/* 0, or a complaint. */
const char *idle_at(uint32_t own);           /* the side is idle there */
const char *as_before(void);                 /* sides and ring unchanged */
const char *ring_outside(size_t stored);     /* but for these from own on */
const char *out_beyond(size_t laid);         /* out unchanged but for these */

/* The same bytes rewritten between two calls, no writer: how many are wrong. */
unsigned long judged_afresh(void);

#endif /* HOSTILE_H */
