/*
 * Files of a record that are rewritten while they are read. Each byte has two
 * faces. What can be demanded: what is laid is whole messages, within the output,
 * and written as a file again it is, byte by byte, one of the two faces of so many
 * bytes as the call says it took: so what was judged is what was laid. Where the
 * output has as many dwords as the file bytes, the file is read once, and the outcome
 * is that of a file that stands still with some choice of the faces.
 */
#include "records.h"

#include <string.h>

enum { LENGTH = 32, VARIANTS = 5 };

/* Five messages: 4, 5, 3, 4 and 7 dwords of a run. */
static const uint8_t good[LENGTH] = {
	0, 2, 1, 7,
	1, 3, 2, 0xFF, 0xFF, 0xFF, 0xFF, 0x0F, 5,
	0, 1, 0x80, 0x80, 4,
	1, 2, 0x81, 0x80, 4, 0xAC, 2,
	0, 5, 4, 1, 2, 3, 9,
};

/* At two places a multiple of four, four bytes each: what lies there instead. */
static const struct other {
	size_t at[2];
	uint8_t bytes[2][4];
} others[VARIANTS] = {
	{ { 12, 20 }, { { 5, 2, 1, 0x80 }, { 0x82, 0x80, 4, 0xAC } } },  /* a direction, a header */
	{ { 0, 28 }, { { 0, 7, 6, 7 }, { 1, 2, 3, 0x89 } } },            /* another L and header; unfinished */
	{ { 4, 8 }, { { 1, 7, 6, 1 }, { 1, 1, 1, 1 } } },                /* one number is five, and needs more room */
	{ { 8, 20 }, { { 0xFF, 0xFF, 0xFF, 0x1F }, { 0x81, 0x80, 0, 0xAC } } }, /* above 32 bits; too long */
	{ { 0, 24 }, { { 2, 2, 1, 7 }, { 2, 0, 0, 4 } } },               /* a direction; L 0 */
};

/* An outcome. */
struct said {
	struct guc_readback got;
	uint32_t laid[LENGTH];
};

static uint8_t *file, faces[2][LENGTH];
static uint32_t *out; /* of LENGTH dwords; room of them are lent, at the end */
static size_t room;
static struct said said, still[256];

int whole_messages(const uint32_t *at, size_t len)
{
	while (len > 0) {
		if (len < 3 || at[0] > 1 || at[1] < 1 || at[1] > GUC_MESSAGE_DWORDS || 1 + (at[2] & 0xFF) != at[1] ||
		    len - 2 < at[1])
			return 0;
		len -= 2 + at[1];
		at += 2 + at[1];
	}
	return 1;
}

size_t encoded(const uint32_t *at, size_t len, uint8_t *to, size_t most)
{
	size_t k, bytes = 0;

	for (k = 0; k < len; k++) {
		uint32_t number = at[k];

		for (; number > 127 && bytes < most; number >>= 7)
			to[bytes++] = (uint8_t)(number | 128);
		if (bytes == most)
			return NOT;
		to[bytes++] = (uint8_t)number;
	}
	return bytes;
}

size_t decoded(const uint8_t *at, size_t len, uint32_t *to, size_t most)
{
	size_t k = 0, dwords = 0;

	while (k < len) {
		uint64_t number = 0;
		unsigned shift = 0;

		for (; k < len && at[k] & 128 && shift < 35; shift += 7)
			number |= (uint64_t)(at[k++] & 127) << shift;
		if (k == len || shift > 28 || (shift && at[k] == 0) || dwords == most)
			return NOT;
		number |= (uint64_t)at[k++] << shift;
		if (number >> 32)
			return NOT;
		to[dwords++] = (uint32_t)number;
	}
	return dwords;
}

const char *marked(const void *at, size_t bytes, const char *where)
{
	const uint8_t *byte = (const uint8_t *)at;
	size_t k;

	for (k = 0; k < bytes; k++)
		if (byte[k] != MARK)
			return complain("answer %u: byte %u %s was written", answer, (unsigned)k, where);
	return NULL;
}

static uint32_t *lent_out(void)
{
	return out + LENGTH - room;
}

static void reset(void)
{
	memset(out, MARK, 4 * LENGTH);
}

static void read_now(void)
{
	said.got = guc_record_read(file, LENGTH, lent_out(), room);
	answer = said.got.code;
}

static uint32_t word_of(const uint8_t *bytes)
{
	uint32_t word;

	memcpy(&word, bytes, 4);
	return word;
}

static void lay(unsigned v)
{
	unsigned k;

	if (!file) {
		file = lent(LENGTH);
		out = lent(4 * LENGTH);
	}
	for (k = 0; k < 2; k++)
		memcpy(faces[k], good, LENGTH);
	for (k = 0; k < 2; k++)
		memcpy(faces[1] + others[v].at[k], others[v].bytes[k], 4);
	memcpy(file, good, LENGTH);
	for (k = 0; k < 2; k++) {
		size_t at = others[v].at[k];

		rewritten_units(file + at, 4, 1, word_of(faces[0] + at), word_of(faces[1] + at));
	}
}

/* As many dwords as bytes: the outcomes of still files are taken first. */
static void lay_once(unsigned v)
{
	unsigned k;

	lay(v);
	room = LENGTH;
	for (k = 0; k < choices(); k++) {
		reset();
		put_choice(k);
		read_now();
		memcpy(said.laid, out, sizeof(said.laid));
		still[k] = said;
	}
}

/* Just the dwords of the good file. */
static void lay_twice(unsigned v)
{
	uint32_t dwords[LENGTH];

	lay(v);
	room = decoded(good, LENGTH, dwords, LENGTH);
}

/* Every count within bounds, and each where it belongs. */
static const char *judge_counts(const struct guc_readback *g)
{
	int bad = g->code == GUC_BAD_RECORD;

	if (g->code != GUC_OK && !bad && (g->code != GUC_SHORT_ROOM || room >= LENGTH))
		return complain("answer %u where there is room for %u dwords", g->code, (unsigned)room);
	if (g->written > room || g->took > LENGTH || g->at > LENGTH || (bad ? g->at < g->took : g->at > 0))
		return complain("answer %u: at %u, %u dwords of %u bytes", g->code, (unsigned)g->at, (unsigned)g->written,
				(unsigned)g->took);
	if (bad ? g->fault < GUC_FAULT_UNFINISHED || g->fault > GUC_FAULT_HEADER : g->fault != 0)
		return complain("answer %u: fault %u", g->code, g->fault);
	if (g->code == GUC_OK && g->took != LENGTH)
		return complain("taken, and %u bytes of it", (unsigned)g->took);
	return NULL;
}

static const char *judge_laid(void)
{
	const struct guc_readback *g = &said.got;
	const char *wrong = judge_counts(g);
	uint8_t again[5 * LENGTH];
	size_t k, bytes;

	showed = answer == GUC_OK;
	if (wrong)
		return wrong;
	if (!whole_messages(lent_out(), g->written))
		return complain("answer %u: the %u dwords laid are not whole messages", answer, (unsigned)g->written);
	bytes = encoded(lent_out(), g->written, again, sizeof(again));
	if (bytes != g->took)
		return complain("answer %u: laid what has %u bytes, took %u", answer, (unsigned)bytes, (unsigned)g->took);
	for (k = 0; k < bytes; k++)
		if (again[k] != faces[0][k] && again[k] != faces[1][k])
			return complain("answer %u: laid a byte 0x%02X, which no face has at %u", answer, again[k], (unsigned)k);
	wrong = marked(out, 4 * (LENGTH - room), "before the output");
	return wrong ? wrong : marked(lent_out() + g->written, 4 * (room - g->written), "behind what is laid");
}

static const char *judge_once(void)
{
	const char *wrong = judge_laid();
	unsigned k;

	memcpy(said.laid, out, sizeof(said.laid));
	for (k = 0; k < choices() && !wrong; k++)
		if (memcmp(&said, &still[k], sizeof(said)) == 0)
			return NULL;
	return wrong ? wrong : complain("answer %u, fault %u, at %u, %u dwords: of no file that stands still", answer,
					said.got.fault, (unsigned)said.got.at, (unsigned)said.got.written);
}

const struct scene record_read_scenes[] = {
	{ "guc_record_read, in one pass", VARIANTS, lay_once, reset, read_now, judge_once, 0 },
	{ "guc_record_read, in two passes", VARIANTS, lay_twice, reset, read_now, judge_laid, 0 },
	{ 0, 0, 0, 0, 0, 0, 0 },
};
