/*
 * No writer: the same bytes at the same address rewritten between two calls are
 * judged afresh, and judged as before when they are put back.
 */
#include "blobs.h"

#include <stdio.h>
#include <string.h>

static unsigned long wrong;

static void expect(uint32_t code, uint32_t wanted, const char *what)
{
	if (code == wanted)
		return;
	printf("    bad: %s: answer %u, not %u\n", what, code, wanted);
	wrong++;
}

/* By either kind of side: each call starts from the same memory. */
static uint32_t send_now(void)
{
	struct guc_descriptor before = *ch.desc;
	uint32_t code;

	reset_channel();
	code = guc_whole_send(&ch.now.whole_sender, ch.desc, ch.ring, N, ch.msg, 2);
	*ch.desc = before;
	expect(guc_send(&ch.now.sender, ch.desc, ch.ring, N, ch.msg, 2), code, "the other side");
	return code;
}

static void message(void)
{
	open_at(0);
	ch.msg[0] = 1;
	ch.msg[1] = 0;
	expect(send_now(), GUC_OK, "message");
	expect(guc_unpack(ch.msg, 2).code, GUC_OK, "unpack");
	ch.msg[1] = 0x40000000u;
	ch.desc->tail = 0;
	expect(send_now(), GUC_BAD_MESSAGE, "message rewritten");
	expect(guc_unpack(ch.msg, 2).code, GUC_BAD_MESSAGE, "unpack rewritten");
	ch.msg[1] = 0x70000000u;
	expect(send_now(), GUC_OK, "message put back");
	expect(guc_unpack(ch.msg, 2).type, GUC_TYPE_SUCCESS, "unpack put back");
}

static void descriptor(void)
{
	open_at(0);
	ch.msg[0] = 1;
	ch.msg[1] = 0;
	expect(send_now(), GUC_OK, "descriptor");
	ch.desc->tail = N;
	expect(send_now(), GUC_OVERFLOW, "TAIL rewritten");
	expect(send_now(), GUC_BROKEN, "STATUS after it");
	ch.desc->status = 0;
	ch.desc->tail = 2;
	expect(send_now(), GUC_MISMATCH, "TAIL rewritten again");
	ch.desc->status = 0;
	ch.desc->tail = 0;
	expect(send_now(), GUC_OK, "descriptor put back");
}

static uint32_t receive_now(void)
{
	struct guc_descriptor before = *ch.desc;
	uint32_t code;

	reset_channel();
	code = guc_whole_receive(&ch.now.whole_receiver, ch.desc, ch.ring, N, ch.out, 256).code;
	*ch.desc = before;
	expect(guc_receive(&ch.now.receiver, ch.desc, ch.ring, N, ch.out, 256).code, code,
	       "the other side");
	return code;
}

static void ring(void)
{
	open_at(0);
	ch.ring[0] = 2;
	ch.ring[1] = 0;
	ch.desc->tail = 3;
	expect(receive_now(), GUC_OK, "ring");
	ch.ring[1] = 0x40000000u;
	ch.desc->head = 0;
	expect(receive_now(), GUC_MALFORMED, "ring rewritten");
	ch.ring[0] = 3;
	ch.desc->head = 0;
	expect(receive_now(), GUC_UNDERFLOW, "ring rewritten again");
	ch.ring[0] = 2;
	ch.ring[1] = 0;
	ch.desc->status = 0;
	expect(receive_now(), GUC_OK, "ring put back");
}

#define LASTX (20 + 24 * 4 + 4) /* the x in the name of the last entry */

static uint32_t part_now(void)
{
	return guc_cpd_part(asked.blob, LENGTH, asked.name, asked.name_len).code;
}

static void blob(void)
{
	expect(part_now(), GUC_OK, "directory");
	asked.blob[0] = 'X';
	expect(part_now(), GUC_CPD_HEADER, "marker rewritten");
	asked.blob[0] = '$';
	asked.name[0] = 'X';
	expect(part_now(), GUC_NO_ENTRY, "name rewritten");
	asked.name[0] = 0;
	expect(part_now(), GUC_BAD_FIELD, "name rewritten again");
	asked.name[0] = 'l';
	asked.blob[LASTX] = '.';
	expect(part_now(), GUC_DUPLICATE_ENTRY, "second entry rewritten");
	asked.blob[LASTX] = 'x';
	expect(part_now(), GUC_OK, "directory put back");
	expect(guc_huc_part(asked.blob, LENGTH, 1).code, GUC_OK, "image");
	asked.blob[200 + 4] ^= 1;
	expect(guc_huc_part(asked.blob, LENGTH, 1).code, GUC_CSS_SIZES, "size rewritten");
	asked.blob[200 + 4] ^= 1;
	expect(guc_huc_part(asked.blob, LENGTH, 1).code, GUC_OK, "image put back");
}

static struct guc_record table[2];
static struct guc_wall shared;

static uint32_t reply_now(void)
{
	return guc_wall_reply(&shared, table, 2, ch.msg, 2).code;
}

/* A request of two dwords, by a channel that is put back before each. */
static uint32_t opened_now(uint32_t room)
{
	static const uint32_t request[2] = { 1, 7 };

	open_at(0);
	reset_channel();
	return guc_wall_send(&shared, table, 2, &ch.now.sender, ch.desc, ch.ring, N, request, 2, room).code;
}

static void wall(void)
{
	ch.msg[0] = 1u << 16 | 1; /* fence 1, busy */
	ch.msg[1] = 0x30000000u;
	expect(guc_wall_fresh(&shared, table, 2, N), GUC_OK, "table");
	expect(reply_now(), GUC_NO_REQUEST, "reply to nothing");
	expect(opened_now(1), GUC_OK, "opening");
	table[0].room = N - 1;
	expect(opened_now(1), GUC_NO_REPLY_ROOM, "what is set aside rewritten");
	table[0].room = N - 2;
	shared.n = 1000;
	expect(opened_now(1), GUC_BAD_BUFFER, "N rewritten");
	shared.n = N;
	expect(opened_now(1), GUC_OK, "second opening");
	expect(reply_now(), GUC_OK, "reply");
	table[0].fence = 1;
	expect(reply_now(), GUC_BAD_TABLE, "record rewritten");
	expect(opened_now(1), GUC_BAD_TABLE, "the same, opened");
	table[0].fence = 0;
	expect(opened_now(0), GUC_TABLE_FULL, "record put back, opened");
	ch.msg[1] = 0x40000000u;
	expect(reply_now(), GUC_BAD_MESSAGE, "reply rewritten");
	ch.msg[1] = 0x70000000u;
	expect(reply_now(), GUC_OK, "reply put back");
	expect(reply_now(), GUC_NO_REQUEST, "reply after that");
}

/* A run of two messages and its file; what is read goes elsewhere. */
static void record(void)
{
	static uint32_t run[7] = { 0, 2, 1, 7, 1, 1, 0 }, back[7];
	static uint8_t file[7];

	expect(guc_record_write(run, 7, file, 7).code, GUC_OK, "run");
	run[3] = 128;
	expect(guc_record_write(run, 7, file, 7).code, GUC_SHORT_ROOM, "dword rewritten");
	run[1] = 3;
	expect(guc_record_write(run, 7, file, 7).code, GUC_BAD_RECORD, "L rewritten");
	run[1] = 2;
	run[3] = 7;
	expect(guc_record_write(run, 7, file, 7).code, GUC_OK, "run put back");
	expect(guc_record_read(file, 7, back, 7).code, GUC_OK, "file");
	file[6] = 128;
	expect(guc_record_read(file, 7, back, 7).fault, GUC_FAULT_UNFINISHED, "byte rewritten");
	file[6] = 0;
	file[4] = 2;
	expect(guc_record_read(file, 7, back, 7).fault, GUC_FAULT_DIRECTION, "direction rewritten");
	expect(guc_record_read(file, 7, back, 3).code, GUC_SHORT_ROOM, "the same, with less room");
	file[4] = 1;
	expect(guc_record_read(file, 7, back, 7).code, GUC_OK, "file put back");
	expect(guc_record_add(back, 7, 3, 1, run + 2, 2).code, GUC_OK, "message");
	run[2] = 0;
	expect(guc_record_add(back, 7, 3, 1, run + 2, 2).code, GUC_BAD_RECORD, "header rewritten");
	run[2] = 0xFF01;
	expect(guc_record_add(back, 7, 3, 1, run + 2, 2).code, GUC_OK, "header put back");
}

unsigned long judged_afresh(void)
{
	message();
	descriptor();
	ring();
	lay_directory();
	blob();
	wall();
	record();
	return wrong;
}
