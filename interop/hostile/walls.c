/*
 * A wall's calls whose memory is rewritten while they run. What can be demanded is
 * what blobs.c demands: each field of a record, each of the message's two dwords,
 * and each word of the descriptor and of the wall is read at one moment, so that the
 * answer, and all of table, wall, sender, ring and descriptor that is not rewritten,
 * are as of memory that stands still with some choice of the faces. Any other
 * outcome is bad. Here are the outcomes, and the scenes of replies.
 */
#include "walls.h"

#include <string.h>

/* An outcome: the answer's fields, and all that is not rewritten. */
struct said {
	uint32_t code, kind, fence, action, count, last, n, tail, status;
	uint32_t own, moved, ring[LENGTH + 1];
	uint16_t left[HALVES];
};

struct guc_record *table, was[RECORDS];
struct guc_wall *shared;
static struct said said, still[256];
static uint32_t hidden; /* 16-bit words of the table that are rewritten, a bit for each */
static int shared_hidden, desc_hidden;

void lay_table(void)
{
	static const uint16_t fences[RECORDS] = { 100, 356, 612, 868, 101, 7 };
	unsigned k;

	if (!table) {
		table = lent(sizeof(was));
		shared = lent(sizeof(*shared));
	}
	open_at(0);
	for (k = 0; k < RECORDS; k++) {
		struct guc_record r = { 1, fences[k], (uint16_t)(0xA0 + k), (uint16_t)k, (uint16_t)(10 + k) };

		was[k] = r;
	}
	hidden = 0;
	shared_hidden = desc_hidden = 0;
}

void lay_free(unsigned k)
{
	memset(was + k, 0, sizeof(*was));
}

void rewrite(unsigned k, unsigned from, uint32_t a_low, uint32_t a_high, uint32_t b_low,
	     uint32_t b_high)
{
	rewritten_units((uint16_t *)table + 5 * k + from, 4, 2, a_high << 16 | a_low, b_high << 16 | b_low);
	hidden |= 3u << (5 * k + from);
}

void rewrite_shared(uint32_t a_n, uint32_t b_last, uint32_t b_n)
{
	rewritten_units(shared, 4, 2, a_n << 16 | LAST, b_n << 16 | b_last);
	shared_hidden = 1;
}

void rewrite_descriptor(uint32_t head, uint32_t tail, uint32_t status)
{
	rewritten(&ch.desc->head, 4, ch.own, head);
	rewritten(&ch.desc->tail, 4, ch.own, tail);
	rewritten(&ch.desc->status, 4, 0, status);
	desc_hidden = 1;
}

/* All that is not rewritten, and faces where something was stored. */
void reset_wall(void)
{
	static unsigned turn;
	unsigned k;

	reset_channel();
	memcpy(ch.ring, ch.ring_was, sizeof(ch.ring_was));
	for (k = 0; k < HALVES; k++)
		if (!(hidden >> k & 1))
			memcpy((uint16_t *)table + k, (const uint16_t *)was + k, 2);
	if (!shared_hidden) {
		shared->last = LAST;
		shared->n = N;
	}
	if (!desc_hidden) {
		ch.desc->head = ch.desc->tail = ch.own;
		ch.desc->status = 0;
	}
	put_faces(turn++);
}

void keep(struct guc_wall_answer a)
{
	struct said s = { a.code, a.kind, a.fence, a.action, a.count, 0, 0, 0, 0, 0, 0, { 0 }, { 0 } };

	answer = a.code;
	said = s;
}

/* After the call, when all may be touched. */
static void keep_left(void)
{
	unsigned k;

	for (k = 0; k < HALVES; k++)
		if (!(hidden >> k & 1))
			memcpy(said.left + k, (const uint16_t *)table + k, 2);
	if (!shared_hidden) {
		said.last = shared->last;
		said.n = shared->n;
	}
	if (!desc_hidden) {
		said.tail = ch.desc->tail;
		said.status = ch.desc->status;
	}
	said.own = ch.now.sender.words[AT_OWN];
	for (k = AT_LEN; k < GUC_STATE_WORDS; k++)
		said.moved |= ch.now.sender.words[k];
	for (k = 0; k <= LENGTH; k++)
		said.ring[k] = ch.ring[(ch.own + k) % N];
}

void listen(void)
{
	unsigned k;

	for (k = 0; k < choices(); k++) {
		reset_wall();
		put_choice(k);
		current->call();
		keep_left();
		still[k] = said;
	}
}

const char *judge_wall(void)
{
	unsigned k;

	keep_left();
	showed = memcmp(&said, &still[0], sizeof(said)) != 0;
	for (k = 0; k < choices(); k++)
		if (memcmp(&said, &still[k], sizeof(said)) == 0)
			return NULL;
	return complain("answer %u, kind %u, fence %u, action %u, count %u, last %u, ring 0x%08X 0x%08X: "
			"of no memory that stands still", said.code, said.kind, said.fence,
			said.action, said.count, said.last, said.ring[0], said.ring[1]);
}

static void reply(void)
{
	keep(guc_wall_reply(shared, table, RECORDS, ch.msg, ch.len));
}

static void lay_reply(uint32_t fence, uint32_t type)
{
	ch.len = LENGTH;
	ch.msg[0] = fence << 16 | (LENGTH - 1);
	ch.msg[1] = type << 28 | 0x123;
}

/* Another fence or length, another type: hit, malformed, nobody's, or no reply. */
static void lay_message(unsigned v)
{
	static const uint32_t header[4] = { 356u << 16 | 3, 100u << 16 | 4, 9u << 16 | 3,
					    100u << 16 | 0x1003 };
	static const uint32_t type[4][2] = { { GUC_TYPE_BUSY, GUC_TYPE_SUCCESS },
					     { GUC_TYPE_FAILURE, 4 },
					     { GUC_TYPE_RETRY, GUC_TYPE_REQUEST },
					     { GUC_TYPE_BUSY, GUC_TYPE_EVENT } };

	lay_table();
	ch.len = LENGTH;
	rewritten(ch.msg, 4, 100u << 16 | 3, header[v]);
	rewritten(ch.msg + 1, 4, type[v][0] << 28, type[v][1] << 28);
	listen();
}

/*
 * The record that a reply finds: open or not, with one action and count or
 * another; or a second one with its fence comes and goes, before it or behind it,
 * which must never be the one that is found; or either of two has the fence. Or the
 * reply buffer's N is allowed or not.
 */
static void lay_found(unsigned v)
{
	lay_table();
	lay_reply(100, v == 2 ? GUC_TYPE_SUCCESS : GUC_TYPE_BUSY);
	if (v == 0) {
		rewrite(0, OPEN, 1, 100, 0, 100);
		rewrite(0, ACTION, 0xA0, 3, 0xB0, 65535);
	} else if (v == 1) {
		was[3].fence = 100;
		rewrite(0, OPEN, 1, NOBODYS, 1, 100);
	} else if (v == 2) {
		was[1].fence = 100;
		rewrite(5, OPEN, 1, NOBODYS, 1, 100);
		rewrite(0, OPEN, 1, NOBODYS, 0, NOBODYS);
	} else {
		rewrite(0, OPEN, 1, 100, 0, 100);
		rewrite(2, OPEN, 1, 612, 1, 100);
	}
	listen();
}

/* N is allowed or not; or never is, although one face is a multiple and the other large enough. */
static void lay_shared(unsigned v)
{
	lay_table();
	lay_reply(100, v ? GUC_TYPE_SUCCESS : GUC_TYPE_BUSY);
	rewrite_shared(v ? 1536 : N, LAST, v ? 0 : 1000);
	listen();
}

const struct scene reply_scenes[] = {
	{ "guc_wall_reply, message", 4, lay_message, reset_wall, reply, judge_wall, 0 },
	{ "guc_wall_reply, table", 4, lay_found, reset_wall, reply, judge_wall, 0 },
	{ "guc_wall_reply, wall", 2, lay_shared, reset_wall, reply, judge_wall, 0 },
	{ 0, 0, 0, 0, 0, 0, 0 },
};
