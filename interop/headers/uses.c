/*
 * Uses every function of guc.h and guc_live.h once, as C and as C++: compiled
 * by .ci/headers with many warnings, and never run.
 */
#include "guc_live.h"
#include "guc.h" /* a second time does no harm */

struct uses {
	struct guc_descriptor desc;
	struct guc_whole_sender whole_sender;
	struct guc_whole_receiver whole_receiver;
	struct guc_sender sender;
	struct guc_receiver receiver;
	struct guc_wall wall;
	struct guc_record table[GUC_RECORDS_MAX];
	uint32_t ring[GUC_RING_MIN], msg[GUC_MESSAGE_DWORDS], out[GUC_MESSAGE_DWORDS];
	uint32_t run[4 * GUC_ENTRY_DWORDS_MAX];
	uint8_t file[4 * GUC_ENTRY_BYTES_MAX];
	uint8_t blob[256], dst[256];
};

uint32_t use_whole(struct uses *u);
uint32_t use_steps(struct uses *u);
uint32_t use_live(struct uses *u);
uint32_t use_live_steps(struct uses *u);
uint32_t use_messages(struct uses *u);
uint32_t use_wall(struct uses *u);
uint32_t use_record(struct uses *u);
uint32_t use_firmware(struct uses *u);

uint32_t use_whole(struct uses *u)
{
	uint32_t sum = guc_interface_3() - GUC_INTERFACE;

	sum += guc_open(&u->sender, &u->receiver, &u->desc, u->ring, GUC_RING_MIN);
	sum += guc_send(&u->sender, &u->desc, u->ring, GUC_RING_MIN, u->msg, 2);
	sum += guc_receive(&u->receiver, &u->desc, u->ring, GUC_RING_MIN, u->out, GUC_MESSAGE_DWORDS).code;
	sum += guc_whole_open(&u->whole_sender, &u->whole_receiver, &u->desc, u->ring, GUC_RING_MIN);
	sum += guc_whole_send(&u->whole_sender, &u->desc, u->ring, GUC_RING_MIN, u->msg, 2);
	sum += guc_whole_receive(&u->whole_receiver, &u->desc, u->ring, GUC_RING_MIN, u->out,
				 GUC_MESSAGE_DWORDS).code;
	return sum;
}

uint32_t use_steps(struct uses *u)
{
	uint32_t sum = 0;

	sum += guc_send_look(&u->sender, &u->desc, u->ring, GUC_RING_MIN, u->msg, 2);
	sum += guc_send_store(&u->sender, &u->desc, u->ring, GUC_RING_MIN);
	sum += guc_send_store_all(&u->sender, &u->desc, u->ring, GUC_RING_MIN);
	sum += guc_sender_own(&u->sender) + guc_sender_len(&u->sender) + guc_sender_moved(&u->sender);
	sum += guc_send_publish(&u->sender, &u->desc, u->ring, GUC_RING_MIN);
	sum += guc_receive_look(&u->receiver, &u->desc, u->ring, GUC_RING_MIN);
	sum += guc_receive_copy(&u->receiver, &u->desc, u->ring, GUC_RING_MIN);
	sum += guc_receive_copy_all(&u->receiver, &u->desc, u->ring, GUC_RING_MIN);
	sum += guc_receiver_own(&u->receiver) + guc_receiver_len(&u->receiver) + guc_receiver_moved(&u->receiver);
	sum += guc_receive_publish(&u->receiver, &u->desc, u->ring, GUC_RING_MIN, u->out,
				   GUC_MESSAGE_DWORDS).code;
	return sum;
}

uint32_t use_live(struct uses *u)
{
	uint32_t sum = 0;

	sum += guc_live_whole_send(&u->whole_sender, &u->desc, u->ring, GUC_RING_MIN, u->msg, 2);
	sum += guc_live_whole_receive(&u->whole_receiver, &u->desc, u->ring, GUC_RING_MIN, u->out,
				      GUC_MESSAGE_DWORDS).code;
	sum += guc_live_send(&u->sender, &u->desc, u->ring, GUC_RING_MIN, u->msg, 2);
	sum += guc_live_receive(&u->receiver, &u->desc, u->ring, GUC_RING_MIN, u->out, GUC_MESSAGE_DWORDS).code;
	GUC_FENCE_FULL();
	return sum;
}

uint32_t use_live_steps(struct uses *u)
{
	uint32_t sum = 0;

	sum += guc_live_send_look(&u->sender, &u->desc, u->ring, GUC_RING_MIN, u->msg, 2);
	sum += guc_live_send_store(&u->sender, &u->desc, u->ring, GUC_RING_MIN);
	sum += guc_live_send_store_all(&u->sender, &u->desc, u->ring, GUC_RING_MIN);
	sum += guc_live_send_publish(&u->sender, &u->desc, u->ring, GUC_RING_MIN);
	sum += guc_live_receive_look(&u->receiver, &u->desc, u->ring, GUC_RING_MIN);
	sum += guc_live_receive_copy(&u->receiver, &u->desc, u->ring, GUC_RING_MIN);
	sum += guc_live_receive_copy_all(&u->receiver, &u->desc, u->ring, GUC_RING_MIN);
	sum += guc_live_receive_publish(&u->receiver, &u->desc, u->ring, GUC_RING_MIN, u->out,
					GUC_MESSAGE_DWORDS).code;
	return sum;
}

uint32_t use_messages(struct uses *u)
{
	struct guc_packed two = guc_pack(GUC_ORIGIN_HOST, 1, 1, GUC_TYPE_REQUEST, 0, 0x10);

	u->msg[0] = two.header;
	u->msg[1] = two.word;
	return guc_strerror(guc_unpack(u->msg, 2).code)[0] == 'a';
}

uint32_t use_wall(struct uses *u)
{
	struct guc_wall_answer a;
	uint32_t sum = 0;

	sum += guc_wall_fresh(&u->wall, u->table, GUC_RECORDS_MAX, GUC_RING_MIN);
	a = guc_wall_send(&u->wall, u->table, GUC_RECORDS_MAX, &u->sender, &u->desc, u->ring, GUC_RING_MIN,
			  u->msg, 2, GUC_REPLY_DWORDS_MAX);
	sum += a.code + a.fence;
	a = guc_live_wall_send(&u->wall, u->table, GUC_RECORDS_MAX, &u->sender, &u->desc, u->ring,
			       GUC_RING_MIN, u->msg, 2, 0);
	sum += a.code + a.fence;
	a = guc_wall_reply(&u->wall, u->table, GUC_RECORDS_MAX, u->msg, 2);
	sum += a.code + a.kind + a.action + a.count;
	sum += 0u + u->table[0].open + u->table[0].fence + u->table[0].action + u->table[0].count;
	sum += 0u + u->table[0].room + u->wall.n;
	return sum + (guc_wall_age(u->wall.last, GUC_FIRST_LAST) < 0);
}

uint32_t use_record(struct uses *u)
{
	struct guc_added a;
	struct guc_written w;
	struct guc_readback r;

	a = guc_record_add(u->run, 4 * GUC_ENTRY_DWORDS_MAX, 0, GUC_SENT, u->msg, 2);
	if (a.code)
		return a.code + a.fault;
	a = guc_record_add(u->run, 4 * GUC_ENTRY_DWORDS_MAX, a.place, GUC_RECEIVED, u->out, 2);
	if (guc_record_write_bound(a.place) > sizeof(u->file))
		return GUC_SHORT_ROOM;
	w = guc_record_write(u->run, a.place, u->file, sizeof(u->file));
	if (w.code == GUC_BAD_RECORD && w.at < a.place)
		return w.fault + (w.fault == GUC_FAULT_HEADER);
	r = guc_record_read(u->file, w.written, u->run, 4 * GUC_ENTRY_DWORDS_MAX);
	return r.code + r.fault + (r.at > r.took) + (r.written < a.place);
}

uint32_t use_firmware(struct uses *u)
{
	uint32_t sum = 0;

	sum += guc_css_answer(u->blob, sizeof(u->blob)).code;
	sum += guc_css_part(u->blob, sizeof(u->blob), GUC_PART_UCODE).code;
	sum += guc_css_copy(u->blob, sizeof(u->blob), GUC_PART_RSA, u->dst, sizeof(u->dst)).code;
	sum += guc_css_version(u->blob, sizeof(u->blob)).code;
	sum += guc_cpd_part(u->blob, sizeof(u->blob), GUC_NAME("huc_fw")).code;
	sum += guc_cpd_copy(u->blob, sizeof(u->blob), GUC_NAME("huc_fw"), u->dst, sizeof(u->dst)).code;
	sum += guc_manifest_version(u->blob, sizeof(u->blob)).code;
	sum += guc_huc_answer(u->blob, sizeof(u->blob)).code;
	sum += guc_huc_part(u->blob, sizeof(u->blob), GUC_PART_MODULUS).code;
	sum += guc_huc_copy(u->blob, sizeof(u->blob), GUC_PART_EXPONENT, u->dst, sizeof(u->dst)).code;
	sum += guc_huc_version(u->blob, sizeof(u->blob)).code;
	return sum;
}
