/*
 * When a live call touches what. The macros of guc_live.h are functions here, and
 * alone in them can the live descriptor be touched; the ring can be touched from
 * the last load of the descriptor's words to the fence, in a store or copy always,
 * in a publish never. Each word that was loaded is changed at once, so that a call
 * that came back to it would see another. Loads, fences and stores are counted, and
 * at the fence all that the twin of guc.h wrote must be there, but for the word
 * that is yet to be written.
 */
#include <stdint.h>

static uint32_t hooked_load(const uint32_t *at);
static void hooked_fence(void);
static void hooked_store(uint32_t *at, uint32_t value);
#define GUC_LOAD_ACQUIRE(p) hooked_load(p)
#define GUC_STORE_WORD(p, v) hooked_store((p), (v))
#define GUC_FENCE_RELEASE() hooked_fence()
#define GUC_FENCE_FULL() __atomic_thread_fence(__ATOMIC_SEQ_CST)

#include "live_calls.h"

#include <stdio.h>
#include <string.h>

enum { HEAD, TAIL, STATUS, WORDS };

static struct walk k;
static struct {
	uint32_t loads[WORDS + 1], was[WORDS], is[WORDS]; /* is: as the live word must be now */
	unsigned loaded, fences, stores, stored; /* stored: which word, at the last store */
} seen;

static const char *name(void)
{
	return call_name(k.trial.call);
}

static void allow_ring(int touchable)
{
	size_t n = k.trial.n == k.n ? k.n : RING_ROOM; /* whole pages */

	allow(ring_of(&k.live, n), 4 * n, touchable);
}

static uint32_t *word(unsigned which)
{
	struct guc_descriptor *d = k.live.desc;

	return which == HEAD ? &d->head : which == TAIL ? &d->tail : &d->status;
}

/* Which of the three words it is; WORDS if none. */
static unsigned which_word(const uint32_t *at)
{
	unsigned which = HEAD;

	while (which < WORDS && word(which) != at)
		which++;
	return which;
}

static uint32_t hooked_load(const uint32_t *at)
{
	unsigned which = which_word(at);
	uint32_t value = 0;

	if (which < WORDS) {
		allow_words(k.live.desc, 1);
		value = *at;
		seen.is[which] = value ^ (uint32_t)(next_random(&k.x) | 1);
		*word(which) = seen.is[which];
		allow_words(k.live.desc, 0);
	}
	if (seen.loaded < WORDS)
		seen.loads[seen.loaded] = which;
	if (++seen.loaded == WORDS)
		allow_ring(1);
	return value;
}

/* The live words are as the loads left them. */
static void check_words(const char *when)
{
	unsigned which;

	for (which = 0; which < WORDS; which++)
		if (*word(which) != seen.is[which])
			bad("guc_live_%s: word %u of the descriptor is written %s", name(), which, when);
}

static void hooked_fence(void)
{
	size_t n = k.trial.n;

	if (seen.fences++)
		bad("guc_live_%s: a second fence", name());
	allow_ring(1);
	if (memcmp(ring_of(&k.live, n), ring_of(&k.plain, n), 4 * n))
		bad("guc_live_%s: the ring is not yet written at the fence", name());
	allow_ring(0);
	if (memcmp(out_of(&k.live, OUT_ROOM), out_of(&k.plain, OUT_ROOM), 4 * OUT_ROOM))
		bad("guc_live_%s: the message is not yet read at the fence", name());
	allow_words(k.live.desc, 1);
	check_words("before the fence");
	allow_words(k.live.desc, 0);
}

static void hooked_store(uint32_t *at, uint32_t value)
{
	seen.stored = which_word(at);
	if (!seen.fences)
		bad("guc_live_%s: word %u of the descriptor is written before the fence", name(), seen.stored);
	if (seen.stores++ || seen.stored == WORDS) {
		bad("guc_live_%s: a second word of the descriptor is written, or a reserved one", name());
		return;
	}
	allow_words(k.live.desc, 1);
	*at = seen.is[seen.stored] = value;
	allow_words(k.live.desc, 0);
}

/* Word that the twin has written by its answer; WORDS: none. */
static unsigned written_by(uint32_t code)
{
	enum call c = k.trial.call;

	if (code == GUC_OVERFLOW || code == GUC_MISMATCH || code == GUC_UNDERFLOW)
		return STATUS;
	if (code == GUC_OK && (c == WHOLE_SEND || c == SEND || c == SEND_PUBLISH || c == WALL_SEND))
		return TAIL;
	if ((code == GUC_OK || code == GUC_MALFORMED) &&
	    (c == WHOLE_RECEIVE || c == RECEIVE || c == RECEIVE_PUBLISH))
		return HEAD;
	return WORDS;
}

static void check_seen(uint32_t code)
{
	unsigned written = written_by(code), stores = written < WORDS, loads = WORDS, which;

	if (is_move(k.trial.call) || k.trial.call == SEND_PUBLISH || k.trial.call == RECEIVE_PUBLISH)
		loads = 0;
	if (seen.loaded != loads)
		bad("guc_live_%s: %u loads of the descriptor, not %u", name(), seen.loaded, loads);
	else if (loads && (seen.loads[0] != STATUS || seen.loads[1] != HEAD || seen.loads[2] != TAIL))
		bad("guc_live_%s: words %u, %u and %u are loaded", name(), seen.loads[0], seen.loads[1],
		    seen.loads[2]);
	if (seen.stores != stores || seen.fences != stores)
		bad("guc_live_%s answered %u with %u stores, %u fences, not %u", name(), code,
		    seen.stores, seen.fences, stores);
	else if (stores && seen.stored != written)
		bad("guc_live_%s answered %u and wrote word %u, not %u", name(), code, seen.stored, written);
	check_words("behind the macros");
	for (which = 0; which < WORDS; which++) /* as if nobody had changed it */
		if (which != seen.stored || !seen.stores)
			*word(which) = seen.was[which];
}

static void trial(void)
{
	struct guc_received plain, live;
	unsigned which;

	lay_trial(&k);
	plain = plain_call(&k.trial, &k.plain);
	memset(&seen, 0, sizeof(seen));
	for (which = 0; which < WORDS; which++)
		seen.was[which] = seen.is[which] = *word(which);
	allow_words(k.live.desc, 0);
	allow_reserved(k.live.desc, 0);
	allow_ring(is_move(k.trial.call));
	live = live_call(&k.trial, &k.live);
	allow_ring(1);
	allow_reserved(k.live.desc, 1);
	allow_words(k.live.desc, 1);
	check_seen(live.code);
	end_trial(&k, plain, live);
}

void order(uint64_t seed, unsigned long calls)
{
	double began = seconds();
	unsigned long i;

	running = "by their order";
	begin_walk(&k, seed);
	for (i = 0; i < calls && !bads(); i++)
		trial();
	if (!bads())
		end_walk(&k);
	printf("%lu live calls by the order of their loads, fences and stores, %.1f s\n", calls,
	       seconds() - began);
	fflush(stdout);
}
