/*
 * guc_live.h: the calls of guc.h for a ring and a descriptor that another
 * processor, or a device, reads and writes meanwhile.
 *
 * guc_live_X takes what guc_X takes, answers what it answers and changes what it
 * changes, for a live descriptor and a live ring:
 *
 * - STATUS, HEAD and TAIL are read once each, into a descriptor of the caller's
 *   own on the stack, and guc_X runs on that, which nobody else can write. What
 *   holds of a ring that somebody writes meanwhile is said in guc.h.
 * - The one word that guc_X changed is written back: TAIL after an accepted send or
 *   publish, HEAD after 0 or 13 of a receive or publish, STATUS after 7, 8 and 9.
 * - No other word of the live descriptor is touched; the reserved ones never are.
 *   Stores and copies touch none at all, and a publish only the word it writes.
 *
 * Side, message and output are the caller's own, as guc.h asks. A channel is
 * opened by guc_open or guc_whole_open while the other side stands still, and
 * GUC_FENCE_FULL() comes before it is told. STATUS both sides may set: where they
 * do at once, the later value stays, and it is never good again by that.
 *
 * THE ORDER that the other side sees, whatever the compiler and the processor do:
 *
 *   sender      HEAD  acquire  stores into the ring  release  TAIL
 *   receiver    TAIL  acquire  reads of the ring     release  HEAD
 *
 * Each acquire meets the other side's release. Behind a publish that the other
 * side is told of, by a doorbell or a wake-up, the caller makes GUC_FENCE_FULL():
 *
 *   code = guc_live_whole_send(&sender, desc, ring, n, msg, len);
 *   if (!code) {
 *           GUC_FENCE_FULL();
 *           (write the doorbell, or see whether the other side sleeps and wake it)
 *   }
 */
#ifndef GUC_LIVE_H
#define GUC_LIVE_H

#include "guc.h"

#ifdef __cplusplus
extern "C" {
#endif

/*
 * The accesses and fences. A kernel defines its own, all four, before it includes
 * this file. On Linux, for a ring in write-back memory:
 *
 *   #define GUC_LOAD_ACQUIRE(p)  smp_load_acquire(p)
 *   #define GUC_STORE_WORD(p, v) WRITE_ONCE(*(p), v)
 *   #define GUC_FENCE_RELEASE()  smp_mb()   (for a device mb(), or dma_wmb() if we only send)
 *   #define GUC_FENCE_FULL()     mb()
 *
 * or, with no instruction for the release on x86-64, smp_store_release(p, v) for
 * GUC_STORE_WORD(p, v) and barrier() for GUC_FENCE_RELEASE().
 *
 * For write-combined memory the fences must be instructions: rmb() (lfence) behind
 * the load in GUC_LOAD_ACQUIRE, and GUC_FENCE_RELEASE wmb() (sfence), or mb() if
 * we also receive; a word that the other side polls needs GUC_FENCE_FULL() behind
 * each call too, or it may stay in the buffer. The defaults below are for
 * write-back memory: on x86-64 the first three hold the compiler, and the
 * processor keeps their order by itself.
 */
#if defined(GUC_LOAD_ACQUIRE) + defined(GUC_STORE_WORD) + defined(GUC_FENCE_RELEASE) + defined(GUC_FENCE_FULL) == 4
/* a kernel's own */
#elif defined(GUC_LOAD_ACQUIRE) || defined(GUC_STORE_WORD) || defined(GUC_FENCE_RELEASE) || defined(GUC_FENCE_FULL)
#error "define all four of GUC_LOAD_ACQUIRE, GUC_STORE_WORD, GUC_FENCE_RELEASE and GUC_FENCE_FULL, or none"
#else
/* The 32-bit word at p, read once and before all that follows. */
#define GUC_LOAD_ACQUIRE(p) __atomic_load_n((p), __ATOMIC_ACQUIRE)
/* The 32-bit word at p is v, by one store. */
#define GUC_STORE_WORD(p, v) __atomic_store_n((p), (v), __ATOMIC_RELAXED)
/* All reads and writes before it come before all writes behind it. */
#define GUC_FENCE_RELEASE() __atomic_thread_fence(__ATOMIC_RELEASE)
/* The caller's, behind a publish: that write comes before all that follows, also
 * before a read of whether the other side sleeps. Not used in this file. */
#define GUC_FENCE_FULL() __atomic_thread_fence(__ATOMIC_SEQ_CST)
#endif

/*
 * What the calls below are made of.
 *
 * STATUS is read first: another side moves no offset after it has set STATUS, so
 * that the three are what the descriptor held at one moment. The reserved words of
 * own are left unset, since no call reads them.
 */
static inline void guc_live_words(const struct guc_descriptor *live, struct guc_descriptor *own)
{
	own->status = GUC_LOAD_ACQUIRE(&live->status);
	/* before a sender's stores into the ring: what HEAD frees has been read */
	own->head = GUC_LOAD_ACQUIRE(&live->head);
	/* before a receiver's reads of the ring: what TAIL shows has been stored */
	own->tail = GUC_LOAD_ACQUIRE(&live->tail);
}

static inline void guc_live_tail(struct guc_descriptor *live, const struct guc_descriptor *own)
{
	GUC_FENCE_RELEASE(); /* the message's dwords before TAIL, which shows them */
	GUC_STORE_WORD(&live->tail, own->tail);
}

static inline void guc_live_head(struct guc_descriptor *live, const struct guc_descriptor *own)
{
	GUC_FENCE_RELEASE(); /* the reads of the ring before HEAD, which frees it */
	GUC_STORE_WORD(&live->head, own->head);
}

static inline void guc_live_status(struct guc_descriptor *live, const struct guc_descriptor *own,
				   uint32_t code)
{
	if (code == GUC_OVERFLOW || code == GUC_MISMATCH || code == GUC_UNDERFLOW) {
		GUC_FENCE_RELEASE(); /* the read of the header before STATUS, which ends all */
		GUC_STORE_WORD(&live->status, own->status);
	}
}

/* The word that a whole send, or a whole receive, has changed. */
static inline void guc_live_sent(struct guc_descriptor *live, const struct guc_descriptor *own,
				 uint32_t code)
{
	if (code == GUC_OK)
		guc_live_tail(live, own);
	else
		guc_live_status(live, own, code);
}

static inline void guc_live_received(struct guc_descriptor *live, const struct guc_descriptor *own,
				     uint32_t code)
{
	if (code == GUC_OK || code == GUC_MALFORMED)
		guc_live_head(live, own);
	else
		guc_live_status(live, own, code);
}

/* What a store or a copy is lent, which reads no word of it. */
static const struct guc_descriptor guc_live_unread = { 0, 0, 0, { 0 } };

/*
 * Whole calls of sides that make no others.
 */
GUC_ANSWER static inline uint32_t
guc_live_whole_send(struct guc_whole_sender *s, struct guc_descriptor *desc,
		    uint32_t *ring, size_t n, const uint32_t *msg, size_t msg_len)
{
	struct guc_descriptor own;
	uint32_t code;

	guc_live_words(desc, &own);
	code = guc_whole_send(s, &own, ring, n, msg, msg_len);
	guc_live_sent(desc, &own, code);
	return code;
}

GUC_ANSWER static inline struct guc_received
guc_live_whole_receive(struct guc_whole_receiver *r, struct guc_descriptor *desc,
		       const uint32_t *ring, size_t n, uint32_t *out, size_t out_len)
{
	struct guc_descriptor own;
	struct guc_received got;

	guc_live_words(desc, &own);
	got = guc_whole_receive(r, &own, ring, n, out, out_len);
	guc_live_received(desc, &own, got.code);
	return got;
}

/*
 * Whole calls of sides that also make steps.
 */
GUC_ANSWER static inline uint32_t
guc_live_send(struct guc_sender *s, struct guc_descriptor *desc,
	      uint32_t *ring, size_t n, const uint32_t *msg, size_t msg_len)
{
	struct guc_descriptor own;
	uint32_t code;

	guc_live_words(desc, &own);
	code = guc_send(s, &own, ring, n, msg, msg_len);
	guc_live_sent(desc, &own, code);
	return code;
}

GUC_ANSWER static inline struct guc_wall_answer
guc_live_wall_send(struct guc_wall *wall, struct guc_record *table, size_t records,
		   struct guc_sender *s, struct guc_descriptor *desc, uint32_t *ring,
		   size_t n, const uint32_t *msg, size_t msg_len, uint32_t room)
{
	struct guc_descriptor own;
	struct guc_wall_answer answer;

	guc_live_words(desc, &own);
	answer = guc_wall_send(wall, table, records, s, &own, ring, n, msg, msg_len, room);
	guc_live_sent(desc, &own, answer.code);
	return answer;
}

GUC_ANSWER static inline struct guc_received
guc_live_receive(struct guc_receiver *r, struct guc_descriptor *desc,
		 const uint32_t *ring, size_t n, uint32_t *out, size_t out_len)
{
	struct guc_descriptor own;
	struct guc_received got;

	guc_live_words(desc, &own);
	got = guc_receive(r, &own, ring, n, out, out_len);
	guc_live_received(desc, &own, got.code);
	return got;
}

/*
 * The steps. A look reads the live words, a publish writes one; between them no
 * call touches the live descriptor. desc of a store or a copy is not used.
 */
GUC_ANSWER static inline uint32_t
guc_live_send_look(struct guc_sender *s, struct guc_descriptor *desc,
		   const uint32_t *ring, size_t n, const uint32_t *msg, size_t msg_len)
{
	struct guc_descriptor own;
	uint32_t code;

	guc_live_words(desc, &own);
	code = guc_send_look(s, &own, ring, n, msg, msg_len);
	guc_live_status(desc, &own, code);
	return code;
}

GUC_ANSWER static inline uint32_t
guc_live_send_store(struct guc_sender *s, const struct guc_descriptor *desc,
		    uint32_t *ring, size_t n)
{
	(void)desc;
	return guc_send_store(s, &guc_live_unread, ring, n);
}

GUC_ANSWER static inline uint32_t
guc_live_send_store_all(struct guc_sender *s, const struct guc_descriptor *desc,
			uint32_t *ring, size_t n)
{
	(void)desc;
	return guc_send_store_all(s, &guc_live_unread, ring, n);
}

GUC_ANSWER static inline uint32_t
guc_live_send_publish(struct guc_sender *s, struct guc_descriptor *desc,
		      const uint32_t *ring, size_t n)
{
	struct guc_descriptor own; /* takes TAIL */
	uint32_t code;

	code = guc_send_publish(s, &own, ring, n);
	if (code == GUC_OK)
		guc_live_tail(desc, &own);
	return code;
}

GUC_ANSWER static inline uint32_t
guc_live_receive_look(struct guc_receiver *r, struct guc_descriptor *desc,
		      const uint32_t *ring, size_t n)
{
	struct guc_descriptor own;
	uint32_t code;

	guc_live_words(desc, &own);
	code = guc_receive_look(r, &own, ring, n);
	guc_live_status(desc, &own, code);
	return code;
}

GUC_ANSWER static inline uint32_t
guc_live_receive_copy(struct guc_receiver *r, const struct guc_descriptor *desc,
		      const uint32_t *ring, size_t n)
{
	(void)desc;
	return guc_receive_copy(r, &guc_live_unread, ring, n);
}

GUC_ANSWER static inline uint32_t
guc_live_receive_copy_all(struct guc_receiver *r, const struct guc_descriptor *desc,
			  const uint32_t *ring, size_t n)
{
	(void)desc;
	return guc_receive_copy_all(r, &guc_live_unread, ring, n);
}

GUC_ANSWER static inline struct guc_received
guc_live_receive_publish(struct guc_receiver *r, struct guc_descriptor *desc,
			 const uint32_t *ring, size_t n, uint32_t *out, size_t out_len)
{
	struct guc_descriptor own; /* takes HEAD */
	struct guc_received got;

	got = guc_receive_publish(r, &own, ring, n, out, out_len);
	guc_live_received(desc, &own, got.code);
	return got;
}

#ifdef __cplusplus
}
#endif

#endif /* GUC_LIVE_H */
