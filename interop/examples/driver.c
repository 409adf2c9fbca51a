/*
 * The worked example of docs/INTEGRATION.md: a driver's send path and receive
 * path. Below it stands a device, played by the same program, that answers.
 */
#include "guc_live.h"

#include <errno.h>
#include <stdio.h>

enum { RING = 1024 };

/* A driver's end of two channels. Descriptors and rings are shared with the device. */
struct ct {
	struct guc_whole_sender sender;     /* under the send lock */
	struct guc_whole_receiver receiver; /* by one reader, say the interrupt's thread */
	struct guc_descriptor *to, *from;
	uint32_t *to_ring, *from_ring;
	volatile uint32_t *doorbell;
	uint32_t msg[GUC_MESSAGE_DWORDS]; /* the reader's */
	void (*handle)(struct ct *ct, const struct guc_unpacked *head, const uint32_t *msg);
};

/* Before the device is told where descriptors and rings lie. It keeps sides of its own. */
static int ct_open(struct ct *ct)
{
	struct guc_whole_receiver reads_to;
	struct guc_whole_sender writes_from;

	if (guc_whole_open(&ct->sender, &reads_to, ct->to, ct->to_ring, RING) ||
	    guc_whole_open(&writes_from, &ct->receiver, ct->from, ct->from_ring, RING))
		return -EINVAL; /* RING is not a size that a ring may have */
	return 0;
}

/* A request: its first two dwords are packed here, len dwords of msg are there. */
static int ct_send(struct ct *ct, uint32_t fence, uint32_t action, uint32_t *msg, uint32_t len)
{
	struct guc_packed two = guc_pack(GUC_ORIGIN_HOST, fence, len - 1, GUC_TYPE_REQUEST, 0, action);
	uint32_t code;

	if (two.code)
		return -EINVAL; /* fence, action or len does not fit its field */
	msg[0] = two.header;
	msg[1] = two.word;
	code = guc_live_whole_send(&ct->sender, ct->to, ct->to_ring, RING, msg, len);
	if (code == GUC_FULL)
		return -EAGAIN; /* nothing has changed: later, when the device has read */
	if (code) {
		printf("send: %s\n", guc_strerror(code));
		return -EPIPE; /* as in ct_receive */
	}
	GUC_FENCE_FULL(); /* TAIL before the doorbell */
	*ct->doorbell = 1;
	return 0;
}

/* All that is pending. */
static int ct_receive(struct ct *ct)
{
	struct guc_unpacked head;
	struct guc_received got;

	for (;;) {
		got = guc_live_whole_receive(&ct->receiver, ct->from, ct->from_ring, RING,
					     ct->msg, GUC_MESSAGE_DWORDS);
		switch (got.code) {
		case GUC_OK:
			head = guc_unpack(ct->msg, got.len); /* 0: the receive has judged it */
			if (head.code == GUC_OK)
				ct->handle(ct, &head, ct->msg);
			break;
		case GUC_EMPTY:
			return 0;
		case GUC_MALFORMED: /* passed over: HEAD is past it */
			printf("receive: %s\n", guc_strerror(got.code));
			break;
		default: /* 6 to 9: stop the device and open again */
			printf("receive: %s\n", guc_strerror(got.code));
			return -EPIPE;
		}
	}
}

/*
 * The device: it reads requests and answers each by a success with the same fence.
 */
static struct guc_descriptor to, from;
static uint32_t to_ring[RING], from_ring[RING];
static volatile uint32_t doorbell;

static void device(void)
{
	static struct guc_whole_receiver r = { RING, 0 };
	static struct guc_whole_sender s = { RING, 0 };
	uint32_t msg[GUC_MESSAGE_DWORDS];
	struct guc_packed two;
	uint32_t code;

	while (!guc_live_whole_receive(&r, &to, to_ring, RING, msg, GUC_MESSAGE_DWORDS).code) {
		two = guc_pack(GUC_ORIGIN_GUC, msg[0] >> 16, 1, GUC_TYPE_SUCCESS, msg[1] & 0xFFFF, 0);
		msg[0] = two.header;
		msg[1] = two.word;
		code = guc_live_whole_send(&s, &from, from_ring, RING, msg, 2);
		if (two.code || code)
			printf("device: %s\n", guc_strerror(code));
	}
}

static void handle(struct ct *ct, const struct guc_unpacked *head, const uint32_t *msg)
{
	(void)ct;
	printf("reply to fence 0x%x: type %u, data 0x%x (%08x)\n", head->fence, head->type, head->first, msg[1]);
}

int main(void)
{
	struct ct ct = {
		.to = &to, .from = &from, .to_ring = to_ring, .from_ring = from_ring,
		.doorbell = &doorbell, .handle = handle,
	};
	uint32_t msg[GUC_MESSAGE_DWORDS] = { 0 }, sent = 0;

	printf("open: %d\n", ct_open(&ct));
	printf("too wide: %d\n", -ct_send(&ct, 0x10000, 0x10, msg, 2) == EINVAL);
	while (ct_send(&ct, 0x100 + sent, 0x4000 + sent, msg, 250) == 0)
		sent++;
	printf("sent until full: %u, doorbell %u\n", sent, doorbell);
	device();
	printf("receive: %d\n", ct_receive(&ct));
	from.tail = RING; /* a device gone wrong */
	printf("broken: %d\n", -ct_receive(&ct) == EPIPE);
	printf("broken: %d\n", -ct_receive(&ct) == EPIPE);
	return 0;
}
