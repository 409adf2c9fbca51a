/*
 * The live twin of a trial's call. Included behind the macros, if any, that
 * guc_live.h is to use.
 */
#ifndef LIVE_CALLS_H
#define LIVE_CALLS_H

#include "guc_live.h"
#include "worlds.h"

static inline struct guc_received live_call(const struct trial *t, struct world *w)
{
	uint32_t *ring = ring_of(w, t->n), *out = out_of(w, t->out_len);
	struct guc_received got = { 0, 0 };

	if (t->call == WHOLE_SEND)
		got.code = guc_live_whole_send(w->whole_sender, w->desc, ring, t->n, t->msg, t->msg_len);
	else if (t->call == WHOLE_RECEIVE)
		got = guc_live_whole_receive(w->whole_receiver, w->desc, ring, t->n, out, t->out_len);
	else if (t->call == SEND)
		got.code = guc_live_send(w->sender, w->desc, ring, t->n, t->msg, t->msg_len);
	else if (t->call == SEND_LOOK)
		got.code = guc_live_send_look(w->sender, w->desc, ring, t->n, t->msg, t->msg_len);
	else if (t->call == SEND_STORE)
		got.code = guc_live_send_store(w->sender, w->desc, ring, t->n);
	else if (t->call == SEND_STORE_ALL)
		got.code = guc_live_send_store_all(w->sender, w->desc, ring, t->n);
	else if (t->call == SEND_PUBLISH)
		got.code = guc_live_send_publish(w->sender, w->desc, ring, t->n);
	else if (t->call == WALL_SEND)
		got = wall_answer(guc_live_wall_send(w->wall, w->table, t->records, w->sender, w->desc, ring, t->n,
						     t->msg, t->msg_len, t->reply_dwords));
	else if (t->call == RECEIVE)
		got = guc_live_receive(w->receiver, w->desc, ring, t->n, out, t->out_len);
	else if (t->call == RECEIVE_LOOK)
		got.code = guc_live_receive_look(w->receiver, w->desc, ring, t->n);
	else if (t->call == RECEIVE_COPY)
		got.code = guc_live_receive_copy(w->receiver, w->desc, ring, t->n);
	else if (t->call == RECEIVE_COPY_ALL)
		got.code = guc_live_receive_copy_all(w->receiver, w->desc, ring, t->n);
	else
		got = guc_live_receive_publish(w->receiver, w->desc, ring, t->n, out, t->out_len);
	return got;
}

#endif /* LIVE_CALLS_H */
