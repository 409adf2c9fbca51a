/*
 * The third worked example of docs/INTEGRATION.md: a driver keeps what goes over
 * its channel, sent and received, and writes it as a file to mail home. Below it
 * stands a device, played by the same program, that answers, tells of events and
 * once sends what no message is. record [FILE] writes the file, or shows how it begins.
 */
#include "guc_live.h"

#include <stdio.h>

enum { RING = 1024, RUN = 4096 };

static struct guc_whole_sender sender, device_sender;
static struct guc_whole_receiver receiver, device_receiver;
static struct guc_descriptor to, from;
static uint32_t to_ring[RING], from_ring[RING];

static uint32_t run[RUN]; /* the record: direction, L and L dwords for each message */
static size_t place;      /* where the next message goes */
static unsigned lost;     /* messages that are not in it */

/* Keeps a message. Where the run is full, the record has its beginning; `lost` counts the others. */
static void keep(uint32_t direction, const uint32_t *msg, size_t len)
{
	struct guc_added a = guc_record_add(run, RUN, place, direction, msg, len);

	place = a.place; /* as it was on a refusal */
	lost += a.code != GUC_OK;
}

/* What was sent is kept when it was sent. */
static uint32_t record_send(const uint32_t *msg, size_t len)
{
	uint32_t code = guc_live_whole_send(&sender, &to, to_ring, RING, msg, len);

	if (code == GUC_OK)
		keep(GUC_SENT, msg, len);
	return code;
}

/* A message that a receive passed over by 13 lies in the ring behind the receiver, for as long as nobody writes there. */
static void keep_malformed(uint32_t at)
{
	uint32_t msg[GUC_MESSAGE_DWORDS], len = (receiver.own + RING - at) % RING, k;

	for (k = 0; k < len; k++)
		msg[k] = from_ring[(at + k) % RING];
	keep(GUC_RECEIVED, msg, len); /* 29 where its header is no longer there */
}

/* What was received is kept before anybody handles it, a malformed message too. */
static struct guc_received record_receive(uint32_t *msg)
{
	uint32_t at = receiver.own;
	struct guc_received got = guc_live_whole_receive(&receiver, &from, from_ring, RING, msg, GUC_MESSAGE_DWORDS);

	if (got.code == GUC_OK)
		keep(GUC_RECEIVED, msg, got.len);
	else if (got.code == GUC_MALFORMED)
		keep_malformed(at);
	return got;
}

/* The record as a file's bytes: as many as that are needed at most. */
static uint8_t bytes[5 * RUN];

static struct guc_written record_bytes(void)
{
	return guc_record_write(run, place, bytes, guc_record_write_bound(place));
}

/* At home: the file's messages, one after another. Those before a byte that is bad are there all the same. */
static void read_back(const uint8_t *file, size_t len)
{
	static uint32_t back[5 * RUN]; /* as many dwords as the file has bytes are always enough */
	struct guc_readback r = guc_record_read(file, len, back, 5 * RUN);
	unsigned ways[2] = { 0, 0 }, types[8] = { 0 }, malformed = 0;
	size_t at;

	for (at = 0; at < r.written; at += 2 + back[at + 1]) {
		struct guc_unpacked head = guc_unpack(back + at + 2, back[at + 1]);

		ways[back[at]]++;
		if (head.code == GUC_OK)
			types[head.type]++;
		else
			malformed++;
	}
	printf("read %u bytes: %s", (unsigned)len, guc_strerror(r.code));
	if (r.code)
		printf(" (byte %u, fault %u)", (unsigned)r.at, (unsigned)r.fault);
	printf("\n%u sent, %u received: %u requests, %u events, %u busy, %u retry, %u failure, %u success, %u malformed\n",
	       ways[GUC_SENT], ways[GUC_RECEIVED], types[GUC_TYPE_REQUEST], types[GUC_TYPE_EVENT], types[GUC_TYPE_BUSY],
	       types[GUC_TYPE_RETRY], types[GUC_TYPE_FAILURE], types[GUC_TYPE_SUCCESS], malformed);
}

/* The device: sends a message of two dwords and so many more. */
static void device_sends(uint32_t fence, uint32_t type, uint32_t first, uint32_t second, uint32_t more)
{
	struct guc_packed two = guc_pack(GUC_ORIGIN_GUC, fence, 1 + more, type, first, second);
	uint32_t msg[GUC_MESSAGE_DWORDS] = { two.header, two.word }, k;

	for (k = 0; k < more; k++)
		msg[2 + k] = 0x1000u << k;
	if (two.code || guc_live_whole_send(&device_sender, &from, from_ring, RING, msg, 2 + more))
		printf("device: not sent\n");
}

/* A message that the library would not send: its type is unknown. */
static void device_errs(uint32_t fence)
{
	uint32_t msg[3] = { fence << 16 | 2, 0xC0000000u, 0xDEAD }, k;

	for (k = 0; k < 3; k++)
		from_ring[(from.tail + k) % RING] = msg[k];
	from.tail = device_sender.own = (from.tail + 3) % RING;
}

/* Answers all requests, by turns in four ways. */
static void device_answers(void)
{
	static const uint32_t types[4] = { GUC_TYPE_SUCCESS, GUC_TYPE_FAILURE, GUC_TYPE_SUCCESS, GUC_TYPE_RETRY };
	uint32_t msg[GUC_MESSAGE_DWORDS], way = 0;

	while (!guc_live_whole_receive(&device_receiver, &to, to_ring, RING, msg, GUC_MESSAGE_DWORDS).code) {
		if (way == 2)
			device_sends(msg[0] >> 16, GUC_TYPE_BUSY, 3, 0, 0);
		device_sends(msg[0] >> 16, types[way], way, way == 1 ? 0x30 : 0, way ? 0 : 6);
		way = (way + 1) % 4;
	}
}

/* Four times: four requests, their answers and an event, each with a fence; once what is malformed. */
static uint32_t traffic(void)
{
	uint32_t msg[GUC_MESSAGE_DWORDS], bad = 0, round, k;
	struct guc_packed two;

	for (round = 0; round < 4; round++) {
		for (k = 0; k < 4; k++) {
			two = guc_pack(GUC_ORIGIN_HOST, 0x100 + 4 * round + k, 1 + k, GUC_TYPE_REQUEST, 0, 0x4000 + k);
			msg[0] = two.header;
			msg[1] = two.word;
			msg[2] = msg[3] = msg[4] = 0x80u << 8 * round;
			bad |= two.code | record_send(msg, 2 + k);
		}
		device_answers();
		device_sends(0x8000 + round, GUC_TYPE_EVENT, 0, 0x7000 + round, round);
		if (round == 2)
			device_errs(0x8010);
		while (record_receive(msg).code != GUC_EMPTY)
			;
	}
	return bad;
}

static int save(const char *name, size_t len)
{
	FILE *file = fopen(name, "wb");
	int good = file && fwrite(bytes, 1, len, file) == len;

	if (file && fclose(file))
		good = 0;
	printf("%s: %s\n", name, good ? "written" : "NOT WRITTEN");
	return good;
}

int main(int argc, char **argv)
{
	struct guc_written w;
	size_t k;

	if (guc_whole_open(&sender, &device_receiver, &to, to_ring, RING) ||
	    guc_whole_open(&device_sender, &receiver, &from, from_ring, RING) || traffic())
		return 1;
	w = record_bytes();
	printf("record: %s, %u dwords of a run, %u bytes of a file, %u lost\n", guc_strerror(w.code), (unsigned)place,
	       (unsigned)w.written, lost);
	if (argc > 1)
		return !save(argv[1], w.written);
	for (k = 0; k < 48 && k < w.written; k++)
		printf("%02X%c", bytes[k], k % 16 == 15 ? '\n' : ' ');
	read_back(bytes, w.written);
	read_back(bytes, w.written / 2); /* what came of it, had the rest been lost in the mail */
	return 0;
}
