/*
 * The library in a page: a channel is opened, a message is sent and received, and
 * both sides are where they should be. archive/test_install compiles it with each
 * archive as installed.
 */
#include <guc.h>
#include <stdio.h>

static struct guc_whole_sender sender;
static struct guc_whole_receiver receiver;
static struct guc_descriptor desc;
static uint32_t ring[GUC_RING_MIN], out[GUC_MESSAGE_DWORDS];

int main(void)
{
	struct guc_packed p = guc_pack(GUC_ORIGIN_HOST, 0x1234, 2, GUC_TYPE_REQUEST, 0, 0x10);
	uint32_t message[3] = {p.header, p.word, 0xCAFE};
	uint32_t code = p.code;
	struct guc_received r;

	if (!code)
		code = guc_whole_open(&sender, &receiver, &desc, ring, GUC_RING_MIN);
	if (!code)
		code = guc_whole_send(&sender, &desc, ring, GUC_RING_MIN, message, 3);
	if (code) {
		printf("refused: %s\n", guc_strerror(code));
		return 1;
	}
	r = guc_whole_receive(&receiver, &desc, ring, GUC_RING_MIN, out, GUC_MESSAGE_DWORDS);
	printf("%s: %u dwords, %08x %08x %08x, HEAD %u, TAIL %u\n", guc_strerror(r.code),
	       (unsigned)r.len, (unsigned)out[0], (unsigned)out[1], (unsigned)out[2],
	       (unsigned)desc.head, (unsigned)desc.tail);
	return r.code != GUC_OK;
}
