/*
 * A wall's table for a trial: mostly one that a request can be opened in, and each
 * thing that refuses one.
 */
#include "worlds.h"

#include <string.h>

/* Open or free, with fences apart; together they set aside at most N - 1 less 256. */
static void lay_records(struct guc_record *t, uint64_t r)
{
	unsigned k;

	for (k = 0; k < RECORDS; k++) {
		t[k].open = (uint16_t)(r >> k & 1);
		t[k].fence = (uint16_t)(k * 77 + (r >> 8 & 255));
		t[k].action = (uint16_t)(r >> 16);
		t[k].count = (uint16_t)(r >> 24 & 3);
		t[k].room = (uint16_t)(r >> (8 + 4 * k) & 127);
	}
	t[r >> 40 & (RECORDS - 1)].open = 0;
}

void lay_wall(struct walk *k, uint64_t r)
{
	static const uint32_t rooms[8] = { 0, 1, 255, 256, 2, 3, 257, 65792 };
	struct world *w = &k->plain;
	unsigned trouble = r >> 44 & 31, i;

	lay_records(w->table, r);
	w->wall->last = (uint16_t)((r >> 8 & 255) - 1); /* the next may be open */
	w->wall->n = 1024;
	k->trial.records = RECORDS;
	k->trial.reply_dwords = rooms[r >> 5 & (trouble == 4 ? 7 : 3)];
	if (trouble == 0)
		k->trial.records = 0;
	if (trouble == 1) {
		w->table[0] = w->table[1];
		w->table[0].open = w->table[1].open = 9;
	}
	if (trouble == 2)
		w->wall->n = 17408;
	for (i = 0; i < RECORDS && trouble == 3; i++)
		w->table[i].open = 1;
	if (trouble == 5 || trouble == 6) {
		w->table[r >> 20 & 3].open = 1;
		w->table[r >> 20 & 3].room = (uint16_t)(trouble == 5 ? 65535 : 1020);
	}
	*k->live.wall = *w->wall;
	memcpy(k->live.table, w->table, RECORDS * sizeof(*w->table));
}
