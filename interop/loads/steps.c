/*
 * Single stores and copies, and publishes; openings and unpacking.
 */
#include "channel.h"

/* A send's store or publish, with so many dwords stored before it. */
static void send_step(int publish, uint32_t answer, uint32_t stored, const char *note)
{
	uint32_t code, k;

	lay(N - 2, 5, 0);
	must(guc_send_look(&sender, &desc, ring, n, msg, msg_len));
	for (k = 0; k < stored; k++)
		must(guc_send_store(&sender, &desc, ring, n));
	if (answer == GUC_BAD_STATE)
		sender.words[AT_COPY + 1] = 0x40000000u;
	calling(publish ? "guc_send_publish" : "guc_send_store", answer, note);
	lent_state(sender.words);
	lent_desc();
	if (publish)
		lent_ring(N - 2, 5);
	else
		lent_ring_next(N - 2 + stored);
	begin();
	if (publish)
		code = guc_send_publish(&sender, &desc, ring, n);
	else
		code = guc_send_store(&sender, &desc, ring, n);
	end(code);
}

/* A receive after its look, with so many dwords copied (the look copies one). */
static void active_receive(uint32_t answer, uint32_t copied)
{
	uint32_t k;

	lay(N - 2, 5, 1);
	if (answer == GUC_MALFORMED)
		ring[N - 1] = 0x40000000u;
	must(guc_receive_look(&receiver, &desc, ring, n));
	for (k = 1; k < copied; k++)
		must(guc_receive_copy(&receiver, &desc, ring, n));
	if (answer == GUC_BAD_STATE)
		receiver.words[AT_LEN] = 6;
}

static void receive_copy(uint32_t answer, uint32_t copied, const char *note)
{
	uint32_t code;

	active_receive(answer, copied);
	calling("guc_receive_copy", answer, note);
	lent_state(receiver.words);
	lent_desc();
	lent_ring_next(N - 2 + copied);
	begin();
	code = guc_receive_copy(&receiver, &desc, ring, n);
	end(code);
}

static void receive_publish(uint32_t answer, uint32_t copied)
{
	struct guc_received got;

	active_receive(answer, copied);
	if (answer == GUC_SHORT_OUTPUT)
		out_len = 255;
	calling("guc_receive_publish", answer, "");
	lent_state(receiver.words);
	lent_desc();
	lent_ring(N - 2, 5);
	lent("out", out, sizeof(out));
	begin();
	got = guc_receive_publish(&receiver, &desc, ring, n, out, out_len);
	end(got.code);
}

static void unpack(uint32_t answer, size_t len, uint32_t second, const char *note)
{
	struct guc_unpacked got;

	lay(0, 5, 0);
	msg[1] = second;
	calling("guc_unpack", answer, note);
	lent_message();
	begin();
	got = guc_unpack(msg, len);
	end(got.code);
}

static void opening(int two, uint32_t answer)
{
	uint32_t code;

	lay(100, 5, 1);
	if (answer == GUC_BAD_BUFFER)
		n = 1000;
	calling(two ? "guc_whole_open" : "guc_open", answer, "");
	if (two) {
		lent_two(&whole_sender.n, &whole_sender.own);
		lent_two(&whole_receiver.n, &whole_receiver.own);
	} else {
		lent_state(sender.words);
		lent_state(receiver.words);
	}
	lent_desc();
	lent_ring(100, 5);
	begin();
	if (two)
		code = guc_whole_open(&whole_sender, &whole_receiver, &desc, ring, n);
	else
		code = guc_open(&sender, &receiver, &desc, ring, n);
	end(code);
}

void step_calls(void)
{
	opening(0, GUC_OK);
	opening(0, GUC_BAD_BUFFER);
	opening(1, GUC_OK);
	opening(1, GUC_BAD_BUFFER);
	send_step(0, GUC_OK, 0, "first dword");
	send_step(0, GUC_OK, 1, "second dword");
	send_step(0, GUC_OK, 4, "last dword");
	send_step(0, GUC_BAD_STATE, 1, "");
	send_step(0, GUC_OUT_OF_TURN, 5, "");
	send_step(1, GUC_OK, 5, "");
	send_step(1, GUC_BAD_STATE, 5, "");
	send_step(1, GUC_OUT_OF_TURN, 4, "");
	receive_copy(GUC_OK, 1, "second dword");
	receive_copy(GUC_OK, 4, "last dword");
	receive_copy(GUC_BAD_STATE, 1, "");
	receive_copy(GUC_OUT_OF_TURN, 5, "");
	receive_publish(GUC_OK, 5);
	receive_publish(GUC_MALFORMED, 5);
	receive_publish(GUC_BAD_STATE, 5);
	receive_publish(GUC_SHORT_OUTPUT, 5);
	receive_publish(GUC_OUT_OF_TURN, 4);
	unpack(GUC_OK, 5, 0x10000020u, "");
	unpack(GUC_BAD_MESSAGE, 5, 0x40000000u, "type");
	unpack(GUC_BAD_MESSAGE, 4, 0x10000020u, "length");
	unpack(GUC_BAD_MESSAGE, 1, 0x10000020u, "one dword");
}
