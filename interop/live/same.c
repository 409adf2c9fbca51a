/*
 * On memory that nobody else writes, each live call must do what its twin of
 * guc.h does on that memory itself: answer, side, descriptor, ring and output.
 */
#include "live_calls.h"

#include <stdio.h>

/* guc_live.h leaves words of its own descriptor unset, and lends stores and copies
 * none: so no call may read a reserved word, nor a store or a copy any word. */
static struct guc_received unread_call(struct walk *k)
{
	struct guc_descriptor *desc = k->plain.desc;
	struct guc_received got;

	allow_reserved(desc, 0);
	allow_words(desc, !is_move(k->trial.call));
	got = plain_call(&k->trial, &k->plain);
	allow_words(desc, 1);
	allow_reserved(desc, 1);
	return got;
}

void same(uint64_t seed, unsigned long calls)
{
	static struct walk k;
	struct guc_received plain, live;
	double began = seconds();
	unsigned long i;

	running = "beside their twins";
	begin_walk(&k, seed);
	for (i = 0; i < calls && !bads(); i++) {
		lay_trial(&k);
		plain = unread_call(&k);
		live = live_call(&k.trial, &k.live);
		end_trial(&k, plain, live);
	}
	if (!bads())
		end_walk(&k);
	printf("%lu live calls beside their twins of guc.h, %.1f s\n", calls, seconds() - began);
	fflush(stdout);
}
