/*
 * The walk's record to mail home: messages added to a run, the run written as a
 * file and read back, what each call refuses, by which number and for which
 * fault, and a file that is cut at each of its bytes.
 */
#include "walk.h"

#include <stddef.h>
#include <string.h>

enum { RUN = 600, FILE_BYTES = 5 * RUN };

/* What is lent, with a mark where nothing was written. */
static uint32_t run[RUN], back[RUN];
static uint8_t file[FILE_BYTES];
static const uint32_t mark = 0xA5A5A5A5u;

/* A message of two dwords, sent: it stands before whatever is wrong below. */
static const uint32_t first[4] = { GUC_SENT, 2, 0x00000001, 5 };
static const uint8_t first_bytes[4] = { 0, 2, 1, 5 };

static void marks(void)
{
	memset(back, 0xA5, sizeof(back));
	memset(file, 0xA5, sizeof(file));
}

/* Nothing from here on was written. */
static int left(size_t dwords, size_t bytes)
{
	size_t k;

	for (k = dwords; k < RUN; k++)
		if (back[k] != mark)
			return 0;
	for (k = bytes; k < FILE_BYTES; k++)
		if (file[k] != 0xA5)
			return 0;
	return 1;
}

/* Where C has the fields; the Rust of the tests has them there too. */
static void layouts(void)
{
	printf("added is %u bytes: %u %u %u; ", (unsigned)sizeof(struct guc_added),
	       (unsigned)offsetof(struct guc_added, code), (unsigned)offsetof(struct guc_added, fault),
	       (unsigned)offsetof(struct guc_added, place));
	printf("written %u: %u %u %u %u; ", (unsigned)sizeof(struct guc_written),
	       (unsigned)offsetof(struct guc_written, code), (unsigned)offsetof(struct guc_written, fault),
	       (unsigned)offsetof(struct guc_written, at), (unsigned)offsetof(struct guc_written, written));
	printf("readback %u: %u %u %u %u %u\n", (unsigned)sizeof(struct guc_readback),
	       (unsigned)offsetof(struct guc_readback, code), (unsigned)offsetof(struct guc_readback, fault),
	       (unsigned)offsetof(struct guc_readback, at), (unsigned)offsetof(struct guc_readback, written),
	       (unsigned)offsetof(struct guc_readback, took));
}

static int refused_add(struct guc_added a, uint32_t code, uint32_t fault, size_t place)
{
	return a.code == code && a.fault == fault && a.place == place;
}

/* Well formed, malformed, of one dword and of 256; refused by each fault, and where it would end behind the run. */
static void adding(void)
{
	static const uint32_t malformed[2] = { 0xABCD1F01u, 0x40000000u }, lone[1] = { 0x00070000 };
	uint32_t msg[GUC_MESSAGE_DWORDS + 1] = { 0 };
	struct guc_added a;
	size_t k;

	for (k = 0; k < RUN; k++)
		run[k] = mark;
	make_message(msg, 256, 7);
	a = guc_record_add(run, RUN, 0, GUC_SENT, msg, 256);
	CHECK(a.code == GUC_OK && a.fault == 0 && a.place == GUC_ENTRY_DWORDS_MAX);
	CHECK(run[0] == 0 && run[1] == 256 && memcmp(run + 2, msg, 1024) == 0 && run[258] == mark);
	a = guc_record_add(run, RUN, a.place, GUC_RECEIVED, malformed, 2);
	CHECK(a.code == GUC_OK && a.place == 262 && run[258] == 1 && run[259] == 2);
	CHECK(run[260] == malformed[0] && run[261] == malformed[1] && run[262] == mark);
	a = guc_record_add(run, 265, a.place, GUC_RECEIVED, lone, 1); /* to the very end */
	CHECK(a.code == GUC_OK && a.place == 265 && run[263] == 1 && run[264] == lone[0]);
	CHECK(refused_add(guc_record_add(run, 267, 265, 0, lone, 1), GUC_SHORT_ROOM, 0, 265));
	CHECK(refused_add(guc_record_add(run, 267, 268, 0, lone, 1), GUC_SHORT_ROOM, 0, 268));
	CHECK(refused_add(guc_record_add(run, RUN, SIZE_MAX, 0, lone, 1), GUC_SHORT_ROOM, 0, SIZE_MAX));
	CHECK(refused_add(guc_record_add(NULL, 0, 0, 1, lone, 1), GUC_SHORT_ROOM, 0, 0));
	CHECK(refused_add(guc_record_add(run, RUN, 265, 2, lone, 1), GUC_BAD_RECORD, GUC_FAULT_DIRECTION, 265));
	CHECK(refused_add(guc_record_add(run, RUN, 265, 0, NULL, 0), GUC_BAD_RECORD, GUC_FAULT_LENGTH, 265));
	CHECK(refused_add(guc_record_add(run, RUN, 265, 0, msg, 257), GUC_BAD_RECORD, GUC_FAULT_LENGTH, 265));
	CHECK(refused_add(guc_record_add(run, RUN, 265, 0, msg, 255), GUC_BAD_RECORD, GUC_FAULT_HEADER, 265));
	CHECK(refused_add(guc_record_add(NULL, 0, 9, 0xFFFFFFFFu, NULL, 0), GUC_BAD_RECORD, GUC_FAULT_DIRECTION, 9));
	CHECK(refused_add(guc_record_add(NULL, 0, 9, 1, malformed, 1), GUC_BAD_RECORD, GUC_FAULT_HEADER, 9));
	for (k = 265; k < RUN; k++)
		CHECK(run[k] == mark);
	printf("added 256, 2 malformed and 1: place %u; then %u and faults %u %u %u\n", (unsigned)a.place,
	       GUC_SHORT_ROOM, GUC_FAULT_DIRECTION, GUC_FAULT_LENGTH, GUC_FAULT_HEADER);
}

/* The run of adding, and one whose numbers take one byte to five: 300 is AC 02. */
static void there_and_back(void)
{
	static const uint32_t wide[13] = { 1, 11, 0x0000000A, 0, 127, 128, 300, 16383, 16384, 0x1FFFFF, 0x200000,
					   0xFFFFFFF, 0xFFFFFFFFu };
	static const uint8_t bytes[36] = { 1, 11, 10, 0, 0x7F, 0x80, 1, 0xAC, 2, 0xFF, 0x7F, 0x80, 0x80, 1, 0xFF,
					   0xFF, 0x7F, 0x80, 0x80, 0x80, 1, 0xFF, 0xFF, 0xFF, 0x7F, 0xFF, 0xFF,
					   0xFF, 0xFF, 15 };
	struct guc_written w;
	struct guc_readback r;

	marks();
	w = guc_record_write(wide, 13, file, FILE_BYTES);
	CHECK(w.code == GUC_OK && w.fault == 0 && w.at == 0 && w.written == 30 && left(0, 30));
	CHECK(memcmp(file, bytes, 30) == 0);
	r = guc_record_read(file, 30, back, RUN);
	CHECK(r.code == GUC_OK && r.fault == 0 && r.at == 0 && r.written == 13 && r.took == 30);
	CHECK(memcmp(back, wide, sizeof(wide)) == 0 && left(13, 30));
	printf("300 in a file: %02X %02X; numbers of 1 to 5 bytes: %u dwords in %u\n", file[7], file[8],
	       (unsigned)r.written, (unsigned)r.took);
	marks();
	w = guc_record_write(run, 265, file, guc_record_write_bound(265));
	CHECK(w.code == GUC_OK && w.written <= guc_record_write_bound(265) && left(0, w.written));
	r = guc_record_read(file, w.written, back, 265);
	CHECK(r.code == GUC_OK && r.written == 265 && r.took == w.written && left(265, w.written));
	CHECK(memcmp(back, run, 4 * 265) == 0);
	r = guc_record_read(NULL, 0, NULL, 0);
	CHECK(r.code == GUC_OK && r.at == 0 && r.written == 0 && r.took == 0);
	w = guc_record_write(NULL, 0, NULL, 0);
	CHECK(w.code == GUC_OK && w.at == 0 && w.written == 0);
	CHECK(guc_record_write_bound(0) == 0 && guc_record_write_bound(7) == 35);
	CHECK(guc_record_write_bound(SIZE_MAX / 5) == SIZE_MAX / 5 * 5);
	CHECK(guc_record_write_bound(SIZE_MAX / 5 + 1) == SIZE_MAX && guc_record_write_bound(SIZE_MAX) == SIZE_MAX);
	printf("there and back: 3 messages, the same; none: the same\n");
}

/* A bad message behind a good one: its fault, or 0 where two could be named, and its dwords. */
struct bad_run {
	uint32_t fault, dwords[4];
	size_t len;
};

static void bad_runs(void)
{
	static const struct bad_run bad[] = {
		{ GUC_FAULT_MISSING, { 1, 0, 0, 0 }, 1 }, { GUC_FAULT_MISSING, { 1, 2, 0, 0 }, 2 },
		{ GUC_FAULT_MISSING, { 1, 2, 1, 0 }, 3 }, { GUC_FAULT_DIRECTION, { 2, 2, 1, 0 }, 4 },
		{ GUC_FAULT_DIRECTION, { 0xFFFFFFFFu, 2, 1, 0 }, 4 }, { GUC_FAULT_LENGTH, { 1, 0, 0, 0 }, 4 },
		{ GUC_FAULT_LENGTH, { 0, 257, 0, 0 }, 259 }, { 0, { 0, 0x10002, 1, 0 }, 4 }, { 0, { 2, 0, 0, 0 }, 1 },
		{ GUC_FAULT_HEADER, { 1, 2, 2, 0 }, 4 }, { GUC_FAULT_HEADER, { 1, 2, 0x00010000, 0 }, 4 },
		{ 0, { 1, 2, 2, 0 }, 3 },
	};
	static uint32_t dwords[4 + 259];
	struct guc_written w;
	size_t k;

	memcpy(dwords, first, sizeof(first));
	for (k = 0; k < sizeof(bad) / sizeof(bad[0]); k++) {
		marks();
		memcpy(dwords + 4, bad[k].dwords, sizeof(bad[k].dwords));
		w = guc_record_write(dwords, 4 + bad[k].len, file, FILE_BYTES);
		CHECK(w.code == GUC_BAD_RECORD && w.at == 4 && w.written == 0);
		CHECK(bad[k].fault ? w.fault == bad[k].fault : w.fault > 0);
		w = guc_record_write(dwords, 4 + bad[k].len, file, 3); /* before the room is asked for */
		CHECK(w.code == GUC_BAD_RECORD && w.at == 4);
		w = guc_record_write(dwords + 4, bad[k].len, NULL, 0);
		CHECK(w.code == GUC_BAD_RECORD && w.at == 0 && left(0, 0));
	}
	w = guc_record_write(first, 4, file, 3);
	CHECK(w.code == GUC_SHORT_ROOM && w.fault == 0 && w.at == 0 && w.written == 0 && left(0, 0));
	w = guc_record_write(first, 4, file, 4);
	CHECK(w.code == GUC_OK && w.written == 4 && memcmp(file, first_bytes, 4) == 0 && left(0, 4));
	printf("runs refused: %u bad ones by %u at 4; one byte too little: %u\n", (unsigned)k, GUC_BAD_RECORD,
	       GUC_SHORT_ROOM);
}

/* The same of a file; at is counted from the bad message's start. */
struct bad_file {
	uint32_t fault;
	size_t at;
	uint8_t bytes[9];
	size_t len;
};

static void bad_files(void)
{
	static const struct bad_file bad[] = {
		{ GUC_FAULT_UNFINISHED, 0, { 0x81 }, 1 }, { GUC_FAULT_UNFINISHED, 2, { 1, 2, 0x81, 0x80 }, 4 },
		{ GUC_FAULT_UNFINISHED, 3, { 1, 2, 1, 0xFF, 0xFF, 0xFF, 0xFF }, 7 },
		{ GUC_FAULT_MISSING, 1, { 1 }, 1 }, { GUC_FAULT_MISSING, 2, { 1, 2 }, 2 },
		{ GUC_FAULT_MISSING, 3, { 1, 2, 1 }, 3 },
		{ GUC_FAULT_TOO_LONG, 0, { 0x80, 0 }, 2 }, { GUC_FAULT_TOO_LONG, 1, { 1, 0x82, 0, 1, 0 }, 5 },
		{ GUC_FAULT_TOO_LONG, 3, { 1, 2, 1, 0xFF, 0xFF, 0xFF, 0xFF, 0 }, 8 },
		{ GUC_FAULT_TOO_WIDE, 3, { 1, 2, 1, 0xFF, 0xFF, 0xFF, 0xFF, 0x10 }, 8 },
		{ GUC_FAULT_TOO_WIDE, 2, { 1, 2, 0x81, 0x80, 0x80, 0x80, 0x80, 0, 7 }, 9 },
		{ GUC_FAULT_DIRECTION, 0, { 2, 2, 1, 0 }, 4 }, { GUC_FAULT_DIRECTION, 0, { 0x80, 1 }, 2 },
		{ GUC_FAULT_LENGTH, 1, { 1, 0, 0 }, 3 }, { GUC_FAULT_LENGTH, 1, { 0, 0x81, 2, 0, 0, 0 }, 6 },
		{ GUC_FAULT_HEADER, 2, { 1, 2, 2, 0 }, 4 }, { GUC_FAULT_HEADER, 2, { 0, 2, 0x80, 2, 0 }, 5 },
		{ 0, 3, { 1, 2, 1, 0xFF, 0xFF, 0xFF, 0xFF, 0xFF }, 8 },
	};
	struct guc_readback r;
	uint8_t bytes[13];
	size_t k, room;

	memcpy(bytes, first_bytes, sizeof(first_bytes));
	for (k = 0; k < sizeof(bad) / sizeof(bad[0]); k++) {
		memcpy(bytes + 4, bad[k].bytes, sizeof(bad[k].bytes));
		for (room = 4; room <= RUN; room += RUN - 4) { /* what is laid fits, or the whole file would */
			marks();
			r = guc_record_read(bytes, 4 + bad[k].len, back, room);
			CHECK(r.code == GUC_BAD_RECORD && r.at == 4 + bad[k].at);
			CHECK(bad[k].fault ? r.fault == bad[k].fault : r.fault > 0);
			CHECK(r.written == 4 && r.took == 4 && memcmp(back, first, sizeof(first)) == 0 && left(4, 0));
		}
		marks();
		r = guc_record_read(bytes, 4 + bad[k].len, back, 3);
		CHECK(r.code == GUC_SHORT_ROOM && r.fault == 0 && r.at == 0 && r.written == 0 && r.took == 0);
		r = guc_record_read(bytes + 4, bad[k].len, NULL, 0); /* nothing is to be laid */
		CHECK(r.code == GUC_BAD_RECORD && r.at == bad[k].at && r.written == 0 && left(0, 0));
	}
	CHECK(guc_record_read(first_bytes, 4, back, 3).code == GUC_SHORT_ROOM && left(0, 0));
	printf("files refused: %u bad ones by %u; one dword too little: %u\n", (unsigned)k, GUC_BAD_RECORD,
	       GUC_SHORT_ROOM);
}

/* The run of adding, written, and cut before each byte: exactly the whole messages before the cut come back. */
static void cuts(void)
{
	struct guc_written w;
	struct guc_readback r;
	size_t cut, whole = 0, dwords = 0, starts[3] = { 0, 0, 0 };

	marks();
	w = guc_record_write(run, 265, file, FILE_BYTES);
	CHECK(w.code == GUC_OK);
	starts[0] = guc_record_write(run, 258, (uint8_t *)back, sizeof(back)).written;
	starts[1] = guc_record_write(run, 262, (uint8_t *)back, sizeof(back)).written;
	starts[2] = w.written;
	for (cut = 0; cut <= w.written; cut++) {
		marks();
		CHECK(guc_record_write(run, 265, file, FILE_BYTES).written == w.written);
		if (whole < 3 && cut == starts[whole])
			dwords += 2 + run[dwords + 1], whole++;
		r = guc_record_read(file, cut, back, dwords);
		CHECK(r.code == (cut == r.took ? GUC_OK : GUC_BAD_RECORD) && r.written == dwords);
		CHECK(r.took == (whole ? starts[whole - 1] : 0) && r.at <= cut && left(dwords, w.written));
		CHECK(memcmp(back, run, 4 * dwords) == 0);
	}
	CHECK(whole == 3 && dwords == 265);
	printf("cut before each of %u bytes: its whole messages\n", (unsigned)w.written);
}

/* A longer file, a piece of it at a time. */
static void pieces(void)
{
	const size_t most = GUC_ENTRY_BYTES_MAX, all = 265 + GUC_ENTRY_DWORDS_MAX;
	uint32_t msg[GUC_MESSAGE_DWORDS];
	struct guc_readback r;
	size_t bytes, at = 0, dwords = 0, read = 0;

	make_message(msg, 256, 0xFFFF);
	CHECK(guc_record_add(run, RUN, 265, GUC_RECEIVED, msg, 256).place == all);
	marks();
	bytes = guc_record_write(run, all, file, FILE_BYTES).written;
	for (; at < bytes; read++) {
		r = guc_record_read(file + at, bytes - at < most ? bytes - at : most, back + dwords, RUN - dwords);
		CHECK((r.code == GUC_OK || r.code == GUC_BAD_RECORD) && r.took > 0);
		at += r.took;
		dwords += r.written;
	}
	CHECK(at == bytes && dwords == all && memcmp(back, run, 4 * all) == 0 && left(all, bytes));
	printf("%u bytes in %u pieces of at most %u: the same\n", (unsigned)bytes, (unsigned)read, (unsigned)most);
}

void walk_records(void)
{
	layouts();
	adding();
	there_and_back();
	bad_runs();
	bad_files();
	cuts();
	pieces();
}
