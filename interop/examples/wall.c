/*
 * The second worked example of docs/INTEGRATION.md: requests of a whole wall,
 * each with room for its answer, and each reply matched to its own. Below it
 * stands a device, played by the same program, that answers out of order.
 */
#include "guc.h"

#include <stdio.h>

enum { RING = 1024, RECORDS = 16 };

static struct guc_sender sender;
static struct guc_receiver device_receiver;
static struct guc_whole_sender device_sender;
static struct guc_whole_receiver receiver;
static struct guc_descriptor to, from;
static uint32_t to_ring[RING], from_ring[RING];
static struct guc_wall wall;
static struct guc_record table[RECORDS]; /* guc_wall_fresh(&wall, table, RECORDS, RING) comes first */

/* A request without payload, sent with a fence of the wall's. room is what its replies may take that
 * lie unread at once, busy ones too. Where it cannot be sent, nothing is left open. */
static uint32_t ask(uint16_t action, uint32_t room)
{
	struct guc_packed two = guc_pack(GUC_ORIGIN_HOST, 0, 1, GUC_TYPE_REQUEST, 0, action);
	uint32_t msg[2] = { two.header, two.word };

	return guc_wall_send(&wall, table, RECORDS, &sender, &to, to_ring, RING, msg, 2, room).code;
}

/* What was received, matched to the request that it answers. */
static void matched(const uint32_t *msg, size_t len)
{
	struct guc_wall_answer a = guc_wall_reply(&wall, table, RECORDS, msg, len);

	if (a.code)
		printf("no reply of ours: %s\n", guc_strerror(a.code));
	else
		printf("action 0x%x: kind %u, busy %u\n", a.action, (unsigned)a.kind, a.count);
}

/* The device: takes all requests, and answers the last first, the first after two times busy. */
static void answer(uint32_t fence, uint32_t type)
{
	struct guc_packed two = guc_pack(GUC_ORIGIN_GUC, fence, 1, type, 0, 0);
	uint32_t msg[2] = { two.header, two.word };

	if (guc_whole_send(&device_sender, &from, from_ring, RING, msg, 2))
		printf("device: not sent\n");
}

static void device(void)
{
	uint32_t msg[GUC_MESSAGE_DWORDS], fences[RECORDS], n = 0;

	while (guc_receive(&device_receiver, &to, to_ring, RING, msg, GUC_MESSAGE_DWORDS).code == GUC_OK)
		fences[n++] = msg[0] >> 16;
	answer(fences[0], GUC_TYPE_BUSY);
	while (n > 1)
		answer(fences[--n], GUC_TYPE_SUCCESS);
	answer(fences[0], GUC_TYPE_BUSY);
	answer(fences[0], GUC_TYPE_RETRY);
	answer(40000, GUC_TYPE_SUCCESS);
}

int main(void)
{
	uint32_t msg[GUC_MESSAGE_DWORDS];
	struct guc_received got;
	unsigned open = 0;

	printf("open: %u\n", (unsigned)(guc_open(&sender, &device_receiver, &to, to_ring, RING) |
	    guc_whole_open(&device_sender, &receiver, &from, from_ring, RING)));
	printf("fresh: %u\n", (unsigned)guc_wall_fresh(&wall, table, RECORDS, RING));
	for (uint16_t action = 0x501; action <= 0x503; action++)
		printf("ask 0x%x: %u\n", action, (unsigned)ask(action, 6)); /* busy twice, and the answer */
	device();
	while ((got = guc_whole_receive(&receiver, &from, from_ring, RING, msg, GUC_MESSAGE_DWORDS)).code == GUC_OK)
		matched(msg, got.len);
	for (uint16_t action = 0x601; action <= 0x604; action++) /* long answers: three find room, and no fourth */
		printf("ask 0x%x: %u\n", action, (unsigned)ask(action, GUC_REPLY_DWORDS_MAX));
	to.status = 1; /* the device gives up: what is asked now is not sent, and not left open */
	printf("ask 0x504: %u\n", (unsigned)ask(0x504, 2));
	for (size_t i = 0; i < RECORDS; i++)
		open += table[i].open;
	printf("open requests: %u\n", open);
	printf("age of fence 0: %d\n", (int)guc_wall_age(0, wall.last));
	return 0;
}
