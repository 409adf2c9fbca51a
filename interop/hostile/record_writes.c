/*
 * Runs that are rewritten while they are written as a file, and messages that are
 * rewritten while they are added to a run. Each dword has two faces. What is demanded
 * of a write: it has written whole messages, within the output, each of their dwords
 * one of the faces of the dword in its place, and a file that guc_record_read takes.
 * Of an adding: the message in the run is the one that was judged.
 */
#include "records.h"

#include <string.h>

enum { LENGTH = 23, VARIANTS = 5, BOUND = 5 * LENGTH, KEPT = 4, PLACE = 2, RUN = 10 };

static const uint32_t good[LENGTH] = {
	0, 2, 1, 7,
	1, 3, 2, 5, 5,
	0, 1, 0x10000,
	1, 2, 0x10001, 300,
	0, 5, 4, 1, 2, 3, 9,
};

/* Dwords that are others, and how many bytes are lent: 0 for just those of the good run. */
static const struct other {
	size_t room, count;
	struct { size_t at; uint32_t dword; } dwords[3];
} others[VARIANTS] = {
	{ 0, 2, { { 9, 2 }, { 14, 0x10002 }, { 0, 0 } } },                  /* a direction, a header */
	{ BOUND, 3, { { 1, 7 }, { 2, 6 }, { 17, 6 } } },                    /* another L and header; an L alone */
	{ 0, 3, { { 7, 0xFFFFFFFFu }, { 8, 1u << 28 }, { 15, 1u << 31 } } }, /* longer numbers: more room */
	{ 0, 3, { { 3, 0xFFFFFFFFu }, { 17, 0 }, { 18, 0xFFFFFF04u } } },   /* the same, and L 0 */
	{ BOUND, 2, { { 12, 3 }, { 17, 300 }, { 0, 0 } } },                 /* a direction, L 300 */
};

static uint32_t *run, faces[2][LENGTH];
static uint8_t *file; /* of BOUND bytes; room of them are lent, at the end */
static size_t room;
static struct guc_written got;

static uint8_t *lent_file(void)
{
	return file + BOUND - room;
}

static void reset(void)
{
	memset(file, MARK, BOUND);
}

static void write_now(void)
{
	got = guc_record_write(run, LENGTH, lent_file(), room);
	answer = got.code;
}

static void lay(unsigned v)
{
	uint8_t bytes[BOUND];
	size_t k;

	if (!run) {
		run = lent(4 * LENGTH);
		file = lent(BOUND);
	}
	room = others[v].room ? others[v].room : encoded(good, LENGTH, bytes, BOUND);
	memcpy(run, good, sizeof(good));
	memcpy(faces[0], good, sizeof(good));
	memcpy(faces[1], good, sizeof(good));
	for (k = 0; k < others[v].count; k++) {
		size_t at = others[v].dwords[k].at;

		faces[1][at] = others[v].dwords[k].dword;
		rewritten(run + at, 4, faces[0][at], faces[1][at]);
	}
}

static const char *judge_counts(void)
{
	int bad = got.code == GUC_BAD_RECORD, f = (int)got.fault;

	if (got.code != GUC_OK && !bad && (got.code != GUC_SHORT_ROOM || room == BOUND))
		return complain("answer %u where there is room for %u bytes", got.code, (unsigned)room);
	if (got.written > room || got.at > LENGTH || (!bad && got.at > 0))
		return complain("answer %u: at %u, %u bytes", got.code, (unsigned)got.at, (unsigned)got.written);
	if (bad ? f != GUC_FAULT_MISSING && (f < GUC_FAULT_DIRECTION || f > GUC_FAULT_HEADER) : f != 0)
		return complain("answer %u: fault %u", got.code, got.fault);
	return NULL;
}

/* What was written, as dwords: whole messages, and faces. */
static const char *judge_dwords(const uint32_t *dwords, size_t count)
{
	size_t k;

	if (count == NOT || !whole_messages(dwords, count))
		return complain("answer %u: the %u bytes written are not whole messages", answer, (unsigned)got.written);
	for (k = 0; k < count; k++)
		if (dwords[k] != faces[0][k] && dwords[k] != faces[1][k])
			return complain("answer %u: wrote 0x%08X, which no face has at %u", answer, dwords[k], (unsigned)k);
	if (got.code == GUC_OK ? count != LENGTH : got.code == GUC_BAD_RECORD && count && count != got.at)
		return complain("answer %u: wrote %u dwords, at %u", answer, (unsigned)count, (unsigned)got.at);
	return NULL;
}

static const char *judge_written(void)
{
	const char *wrong = judge_counts();
	uint32_t dwords[LENGTH], back[LENGTH];
	struct guc_readback r;
	size_t count;

	showed = answer == GUC_OK;
	if (wrong)
		return wrong;
	count = decoded(lent_file(), got.written, dwords, LENGTH);
	wrong = judge_dwords(dwords, count);
	if (wrong)
		return wrong;
	r = guc_record_read(lent_file(), got.written, back, LENGTH);
	if (r.code != GUC_OK || r.written != count || memcmp(back, dwords, 4 * count))
		return complain("answer %u: %u bytes that are read with %u", answer, (unsigned)got.written, r.code);
	wrong = marked(file, BOUND - room, "before the output");
	return wrong ? wrong : marked(lent_file() + got.written, room - got.written, "behind what is written");
}

/* An adding: the message is ch.msg, the run's rest is marks. */
static uint32_t *kept, message[2][KEPT];
static struct guc_added added;

static void reset_kept(void)
{
	memset(kept, MARK, 4 * RUN);
}

static void add_now(void)
{
	added = guc_record_add(kept, RUN, PLACE, GUC_RECEIVED, ch.msg, KEPT);
	answer = added.code;
}

/* The header agrees or not, or both faces do; the other dwords are of either face. */
static void lay_message(unsigned v)
{
	static const uint32_t headers[2][2] = { { 0x12340003, 0x12340004 }, { 0x12340003, 0xFFFFFF03 } };
	size_t k;

	open_at(0);
	if (!kept)
		kept = lent(4 * RUN);
	for (k = 0; k < KEPT; k++) {
		message[0][k] = k ? 0xD0000000u + (uint32_t)k : headers[v % 2][0];
		message[1][k] = k ? 0xE0000000u + (uint32_t)k : headers[v % 2][1];
		rewritten(ch.msg + k, 4, message[0][k], message[1][k]);
	}
}

static const char *judge_added(void)
{
	const uint32_t *at = kept + PLACE;
	const char *wrong = marked(kept, 4 * PLACE, "before the place");
	size_t k, after = PLACE + 2 + KEPT;

	showed = answer == GUC_OK && at[3] == message[0][1];
	if (answer == GUC_BAD_RECORD && added.fault == GUC_FAULT_HEADER && added.place == PLACE && !wrong)
		return marked(kept, 4 * RUN, "of the run");
	if (answer != GUC_OK || added.fault || added.place != after || wrong)
		return wrong ? wrong : complain("answer %u, fault %u, place %u", answer, added.fault, (unsigned)added.place);
	if (at[0] != GUC_RECEIVED || at[1] != KEPT || 1 + (at[2] & 0xFF) != KEPT)
		return complain("added, with L %u and header 0x%08X", at[1], at[2]);
	for (k = 0; k < KEPT; k++)
		if (at[2 + k] != message[0][k] && at[2 + k] != message[1][k])
			return complain("added, and dword %u is another", (unsigned)k);
	return marked(kept + after, 4 * (RUN - after), "behind the message");
}

const struct scene record_write_scenes[] = {
	{ "guc_record_write, run", VARIANTS, lay, reset, write_now, judge_written, 0 },
	{ "guc_record_add, message", 2, lay_message, reset_kept, add_now, judge_added, 0 },
	{ 0, 0, 0, 0, 0, 0, 0 },
};
