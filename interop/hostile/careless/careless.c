/*
 * Careless code, to show that the scenes can fail: the same answers as libguc.a
 * for memory that stands still, but words are read again after they were judged.
 * Linked in the place of the archive's functions of the same names.
 */
#include "hostile.h"

#include <string.h>

/* Every read is a read. */
static uint32_t get(const uint32_t *at)
{
	return *(const volatile uint32_t *)at;
}

static uint32_t dword(const uint8_t *at)
{
	return get((const uint32_t *)(const void *)at);
}

static uint32_t refuse(struct guc_descriptor *desc, uint32_t status, uint32_t code)
{
	desc->status = status;
	return code;
}

/* 6, 7 and 8, for the side whose own offset is the word mine. */
static uint32_t judge(uint32_t own, struct guc_descriptor *desc, const uint32_t *mine)
{
	if (get(&desc->status))
		return GUC_BROKEN;
	if (get(&desc->head) >= N || get(&desc->tail) >= N)
		return refuse(desc, GUC_STATUS_OVERFLOW, GUC_OVERFLOW);
	if (get(mine) != own)
		return refuse(desc, GUC_STATUS_MISMATCH, GUC_MISMATCH);
	return GUC_OK;
}

/* HEAD and TAIL are read again for what is used. */
static uint32_t used(const struct guc_descriptor *desc)
{
	return (get(&desc->tail) - get(&desc->head)) % N;
}

static uint32_t may_send(uint32_t own, struct guc_descriptor *desc, const uint32_t *msg, size_t len)
{
	uint32_t code;

	if (!well_formed(get(msg), get(msg + 1)) || 1 + (get(msg) & 0xFF) != len)
		return GUC_BAD_MESSAGE;
	code = judge(own, desc, &desc->tail);
	return code ? code : len > N - 1 - used(desc) ? GUC_FULL : GUC_OK;
}

/* Stores from TAIL on, which was judged to be the own tail. */
static uint32_t send_whole(uint32_t *own, struct guc_descriptor *desc, uint32_t *ring,
			   const uint32_t *msg, size_t len)
{
	uint32_t k, tail, code = may_send(*own, desc, msg, len);

	if (code)
		return code;
	tail = get(&desc->tail);
	for (k = 0; k < len; k++)
		ring[(tail + k) % N] = get(msg + k);
	desc->tail = *own = (tail + (uint32_t)len) % N;
	return GUC_OK;
}

uint32_t guc_send(struct guc_sender *s, struct guc_descriptor *desc, uint32_t *ring, size_t n,
		  const uint32_t *msg, size_t len)
{
	(void)n;
	return send_whole(s->words + AT_OWN, desc, ring, msg, len);
}

uint32_t guc_whole_send(struct guc_whole_sender *s, struct guc_descriptor *desc, uint32_t *ring,
			size_t n, const uint32_t *msg, size_t len)
{
	(void)n;
	return send_whole(&s->own, desc, ring, msg, len);
}

uint32_t guc_send_look(struct guc_sender *s, struct guc_descriptor *desc, const uint32_t *ring,
		       size_t n, const uint32_t *msg, size_t len)
{
	uint32_t k, code = may_send(s->words[AT_OWN], desc, msg, len);

	(void)ring;
	(void)n;
	if (code)
		return code;
	s->words[AT_OWN] = get(&desc->tail);
	s->words[AT_LEN] = (uint32_t)len;
	for (k = 0; k < len; k++)
		s->words[AT_COPY + k] = get(msg + k);
	return GUC_OK;
}

/* Stores from TAIL on, as if it were the own tail still. */
uint32_t guc_send_store_all(struct guc_sender *s, const struct guc_descriptor *desc,
			    uint32_t *ring, size_t n)
{
	uint32_t *moved = s->words + AT_MOVED;

	(void)n;
	for (; *moved < s->words[AT_LEN]; ++*moved)
		ring[(get(&desc->tail) + *moved) % N] = s->words[AT_COPY + *moved];
	return GUC_OK;
}

static uint32_t may_receive(uint32_t own, struct guc_descriptor *desc, const uint32_t *ring)
{
	uint32_t code = judge(own, desc, &desc->head);

	if (code)
		return code;
	if (used(desc) == 0)
		return GUC_EMPTY;
	if (1 + (get(ring + own) & 0xFF) > used(desc))
		return refuse(desc, GUC_STATUS_UNDERFLOW, GUC_UNDERFLOW);
	return GUC_OK;
}

/* Lays from HEAD on; the header's L and the header laid are two reads. */
static struct guc_received receive_whole(uint32_t *own, struct guc_descriptor *desc,
					 const uint32_t *ring, uint32_t *out)
{
	struct guc_received r = { may_receive(*own, desc, ring), 0 };
	uint32_t k, head, len;

	if (r.code)
		return r;
	head = get(&desc->head) % N;
	len = 1 + (get(ring + head) & 0xFF);
	if (!well_formed(get(ring + head), get(ring + (head + 1) % N)))
		r.code = GUC_MALFORMED;
	else
		r.len = len;
	for (k = 0; k < r.len; k++)
		out[k] = get(ring + (head + k) % N);
	desc->head = *own = (head + len) % N;
	return r;
}

struct guc_received guc_receive(struct guc_receiver *r, struct guc_descriptor *desc,
				const uint32_t *ring, size_t n, uint32_t *out, size_t out_len)
{
	(void)n;
	(void)out_len;
	return receive_whole(r->words + AT_OWN, desc, ring, out);
}

struct guc_received guc_whole_receive(struct guc_whole_receiver *r, struct guc_descriptor *desc,
				      const uint32_t *ring, size_t n, uint32_t *out, size_t out_len)
{
	(void)n;
	(void)out_len;
	return receive_whole(&r->own, desc, ring, out);
}

uint32_t guc_receive_look(struct guc_receiver *r, struct guc_descriptor *desc, const uint32_t *ring,
			  size_t n)
{
	uint32_t *w = r->words, code = may_receive(w[AT_OWN], desc, ring);

	(void)n;
	if (code)
		return code;
	w[AT_OWN] = get(&desc->head);
	w[AT_LEN] = 1 + (get(ring + w[AT_OWN] % N) & 0xFF);
	w[AT_MOVED] = 1;
	w[AT_COPY] = get(ring + w[AT_OWN] % N);
	return GUC_OK;
}

/* Copies as many as the header in the ring says now. */
uint32_t guc_receive_copy_all(struct guc_receiver *r, const struct guc_descriptor *desc,
			      const uint32_t *ring, size_t n)
{
	uint32_t *w = r->words, own = w[AT_OWN] % N, len = 1 + (get(ring + own) & 0xFF);

	(void)desc;
	(void)n;
	for (; w[AT_MOVED] < len; w[AT_MOVED]++)
		w[AT_COPY + w[AT_MOVED]] = get(ring + (own + w[AT_MOVED]) % N);
	return GUC_OK;
}

/* Judged, then each field read again. */
struct guc_part guc_css_part(const uint8_t *blob, size_t len, uint32_t which)
{
	struct guc_part p = { guc_css_answer(blob, len).code, 0, 0, 0 };
	size_t ucode = 128, rsa = ucode + 4 * (dword(blob + 24) - (size_t)dword(blob + 4));
	size_t modulus = rsa + 4 * (size_t)dword(blob + 28);
	size_t exponent = modulus + 4 * (size_t)dword(blob + 32);
	const size_t start[5] = { ucode, rsa, modulus, exponent, exponent + 4 };

	p.truncated = p.code == GUC_OK && 4 * (size_t)dword(blob + 24) > len;
	if (p.code || (which > 1 && p.truncated))
		return p;
	p.start = start[which];
	p.len = start[which + 1] - start[which];
	return p;
}

struct guc_copied guc_css_copy(const uint8_t *blob, size_t len, uint32_t which, uint8_t *dst,
			       size_t room)
{
	struct guc_part p = guc_css_part(blob, len, which);
	struct guc_copied c = { p.code ? p.code : p.len > room ? GUC_NO_ROOM : GUC_OK,
				p.truncated, p.len };

	if (c.code == GUC_OK && p.start + p.len <= len)
		memcpy(dst, blob + p.start, p.len);
	return c;
}

static uint8_t byte(const uint8_t *at)
{
	return *(const volatile uint8_t *)at;
}

static int has_name(const uint8_t *entry, const char *name, size_t len)
{
	size_t k;

	for (k = 0; k < 12; k++)
		if (byte(entry + k) != (k < len ? byte((const uint8_t *)name + k) : 0))
			return 0;
	return 1;
}

/* 14, 18 and 19, all that the scenes meet; H and n are read once, so that no entry
 * outside the blob is read. */
static uint32_t may_walk(const uint8_t *blob, size_t len, const char *name, size_t name_len,
			 size_t *at, size_t *count)
{
	size_t k;

	for (k = 0; k < name_len; k++)
		if (byte((const uint8_t *)name + k) == 0)
			return GUC_BAD_FIELD;
	*at = byte(blob + 10);
	*count = dword(blob + 4);
	if (dword(blob) != 0x44504324u || *at < 20)
		return GUC_CPD_HEADER;
	return *at + 24 * *count > len ? GUC_CPD_ENTRIES : GUC_OK;
}

/* Walks once to count the entries of the name and again to find the first; its
 * offset and length are read again after they were judged. */
struct guc_part guc_cpd_part(const uint8_t *blob, size_t len, const char *name, size_t name_len)
{
	struct guc_part p = { GUC_OK, 0, 0, 0 };
	size_t k, at, count, named = 0;

	p.code = may_walk(blob, len, name, name_len, &at, &count);
	if (p.code)
		return p;
	for (k = 0; k < count; k++)
		named += (size_t)has_name(blob + at + 24 * k, name, name_len);
	for (k = 0; k < count && !has_name(blob + at + 24 * k, name, name_len); k++)
		;
	p.code = named > 1 ? GUC_DUPLICATE_ENTRY : named == 0 || k == count ? GUC_NO_ENTRY : GUC_OK;
	if (p.code)
		return p;
	blob += at + 24 * k;
	if ((dword(blob + 12) & 0x1FFFFFFu) + (size_t)dword(blob + 16) > len) {
		p.code = GUC_CPD_BEYOND;
		return p;
	}
	p.start = dword(blob + 12) & 0x1FFFFFFu;
	p.len = dword(blob + 16);
	return p;
}

struct guc_version guc_css_version(const uint8_t *blob, size_t len)
{
	struct guc_version v = { guc_css_answer(blob, len).code, 0, 0, 0 };

	if (v.code == GUC_OK) {
		v.major = dword(blob + 64) >> 16 & 0xFF;
		v.minor = dword(blob + 64) >> 8 & 0xFF;
		v.patch = dword(blob + 64) & 0xFF;
	}
	return v;
}
