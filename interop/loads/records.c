/*
 * A record's calls: messages added to a run, runs written, files read in one pass
 * and in two, accepted and refused by each number and for each fault.
 */
#include "records.h"

#include <string.h>

static uint32_t msg[GUC_MESSAGE_DWORDS + 1];

/* A message of so many dwords, said to be of len, added from place on. */
static void add(uint32_t answer, uint32_t dwords_of, size_t len, uint32_t direction, size_t place, const char *note)
{
	uint32_t code;

	lay_dwords(msg, dwords_of, MIXED);
	calling("guc_record_add", answer, note);
	lent("header", msg, 4 * (len > 0));
	lent("rest", msg + 1, 4 * (len > 1 ? len - 1 : 0));
	lent("message.outside", msg + len, 4 * (GUC_MESSAGE_DWORDS + 1 - len));
	lent_run_output(answer == GUC_OK ? place : 0, answer == GUC_OK ? len + 2 : 0);
	begin();
	code = guc_record_add(run, DWORDS, place, direction, len ? msg : NULL, len).code;
	end(code);
}

static void adding(void)
{
	static const uint32_t lengths[] = { 1, 2, 3, 4, 5, 17, 255, 256 };
	size_t k;

	for (k = 0; k < sizeof(lengths) / sizeof(lengths[0]); k++) {
		add(GUC_OK, lengths[k], lengths[k], GUC_SENT, 0, "at the start");
		add(GUC_OK, lengths[k], lengths[k], GUC_RECEIVED, DWORDS - 2 - lengths[k], "at the end");
		add(GUC_SHORT_ROOM, lengths[k], lengths[k], GUC_SENT, DWORDS - 1 - lengths[k], "one too far");
	}
	add(GUC_SHORT_ROOM, 5, 5, GUC_SENT, DWORDS + 1, "behind the end");
	add(GUC_BAD_RECORD, 5, 5, 2, 0, "direction");
	add(GUC_BAD_RECORD, 5, 0, GUC_SENT, 0, "nothing");
	add(GUC_BAD_RECORD, 256, 257, GUC_SENT, 0, "257");
	add(GUC_BAD_RECORD, 5, 4, GUC_SENT, 0, "header");
}

/* The run as laid, with so many dwords of a bad message behind it. */
static void write_run(uint32_t answer, size_t bad, size_t behind, size_t room, const char *note)
{
	uint32_t code;

	calling("guc_record_write", answer, note);
	lent_run(bad, behind);
	lent_file_output(answer == GUC_OK ? bytes : 0);
	begin();
	code = guc_record_write(run, dwords + bad + behind, file, room).code;
	end(code);
}

/* What makes a message bad: its dwords, of which the three that are judged may be looked at. */
static const struct bad_run {
	const char *note;
	uint32_t at[4];
	size_t bad, behind;
} bad_runs[] = {
	{ "direction", { 2, 2, 1, 7 }, 3, 1 },
	{ "L 0", { 1, 0, 1, 7 }, 3, 1 },
	{ "L 257", { 1, 257, 0, 7 }, 3, 1 },
	{ "header", { 1, 2, 2, 7 }, 3, 1 },
	{ "ends before L", { 1, 0, 0, 0 }, 1, 0 },
	{ "ends before the header", { 1, 2, 0, 0 }, 2, 0 },
	{ "ends within", { 1, 3, 2, 7 }, 4, 0 },
};

static void writing(const uint32_t *lengths, enum kind kind)
{
	lay_record(lengths, kind);
	write_run(GUC_OK, 0, 0, bytes, "just enough");
	write_run(GUC_OK, 0, 0, BYTES, "more room");
	if (bytes)
		write_run(GUC_SHORT_ROOM, 0, 0, bytes - 1, "one too little");
}

static void refused_runs(const uint32_t *lengths)
{
	size_t k;

	lay_record(lengths, MIXED);
	for (k = 0; k < sizeof(bad_runs) / sizeof(bad_runs[0]); k++) {
		memcpy(run + dwords, bad_runs[k].at, sizeof(bad_runs[k].at));
		write_run(GUC_BAD_RECORD, bad_runs[k].bad, bad_runs[k].behind, 1, bad_runs[k].note);
	}
}

/* The file as laid, with such bytes of a bad message behind it; the whole messages are laid but on 30. */
static void read_file(uint32_t answer, size_t torn, size_t bad, size_t behind, size_t room, const char *note)
{
	size_t len = bytes + torn + bad + behind, laid = answer == GUC_SHORT_ROOM ? 0 : dwords;
	uint32_t code;

	calling("guc_record_read", answer, note);
	lent_file(room < len, torn, bad, behind);
	lent_run_output(0, laid);
	begin();
	code = guc_record_read(file, len, run, room).code;
	end(code);
}

/* The same of a file: good numbers, the bad one, what lies behind it. */
static const struct bad_file {
	const char *note;
	uint8_t at[10];
	size_t torn, bad, behind;
} bad_files[] = {
	{ "unfinished", { 1, 2, 0x81 }, 2, 1, 0 },
	{ "missing", { 1, 2, 1 }, 3, 0, 0 },
	{ "no L", { 1 }, 1, 0, 0 },
	{ "too long", { 1, 0x82, 0, 1, 0 }, 1, 2, 2 },
	{ "five bytes, the last 0", { 1, 2, 1, 0x80, 0x80, 0x80, 0x80, 0, 7 }, 3, 5, 1 },
	{ "too wide", { 1, 2, 1, 0xFF, 0xFF, 0xFF, 0xFF, 0x10, 7, 7 }, 3, 5, 2 },
	{ "six bytes", { 1, 2, 0x81, 0x80, 0x80, 0x80, 0x80, 1, 7 }, 2, 6, 1 },
	{ "direction", { 2, 2, 1, 7 }, 0, 1, 3 },
	{ "L 0", { 1, 0, 1, 7 }, 1, 1, 2 },
	{ "L 257", { 1, 0x81, 2, 0, 7 }, 1, 2, 2 },
	{ "header", { 1, 2, 2, 7 }, 2, 1, 1 },
};

/* As much room as bytes, more, just enough, and one dword too little where something is to be laid. */
static void reads(uint32_t answer, size_t torn, size_t bad, size_t behind, const char *note)
{
	size_t len = bytes + torn + bad + behind;

	read_file(answer, torn, bad, behind, len, note);
	read_file(answer, torn, bad, behind, DWORDS, note);
	if (dwords < len)
		read_file(answer, torn, bad, behind, dwords, note);
	if (dwords)
		read_file(GUC_SHORT_ROOM, torn, bad, behind, dwords - 1, note);
}

static void refused_files(const uint32_t *lengths)
{
	size_t k;

	for (k = 0; k < sizeof(bad_files) / sizeof(bad_files[0]); k++) {
		const struct bad_file *b = bad_files + k;

		lay_record(lengths, MIXED);
		memcpy(file + bytes, b->at, sizeof(b->at));
		reads(GUC_BAD_RECORD, b->torn, b->bad, b->behind, b->note);
	}
}

static void both(const uint32_t *lengths, enum kind kind)
{
	writing(lengths, kind);
	lay_record(lengths, kind);
	reads(GUC_OK, 0, 0, 0, "whole");
}

void record_calls(void)
{
	static const uint32_t records[][5] = { { 0 }, { 1 }, { 2 }, { 5, 1, 2, 3 }, { 17, 17 }, { 256 } };
	static const uint32_t few[] = { 3, 1, 0 }, many[] = { 256, 3, 200, 0 };
	size_t k;

	adding();
	for (k = 0; k < sizeof(records) / sizeof(records[0]); k++) {
		both(records[k], SMALL);
		both(records[k], MIXED);
		both(records[k], WIDE);
	}
	both(many, MIXED);
	refused_runs(records[0]);
	refused_runs(few);
	refused_files(records[0]);
	refused_files(few);
}
