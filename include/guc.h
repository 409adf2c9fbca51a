/* guc.h: the C interface of libguc, for callers in a kernel or a program. One direction of a
 * command transport buffer (CTB), the CTB and HXG words of its messages, replies matched to the
 * requests of a whole wall, a record of what went over it, and the parts of CSS and HuC CPD firmware
 * images.
 *
 * ANSWERS ARE POSITIVE. 0 is accepted, and every refusal is a number above 0 of enum guc_number:
 * `if (ret < 0)` never fires, write `if (ret)`. A compiler warns where nobody looks at an answer.
 * (guc_wall_age and guc_record_write_bound have no number to give: an age, which may be below 0, and
 * a count of bytes.)
 *
 * Every function is total: it answers any contents and any counts, it never aborts, and it keeps
 * nothing between calls; there is no hidden state and no allocation. Where several numbers apply,
 * the lowest is given, but 22 is tested before 21, the calls of a wall have an order of their own
 * (35 before all others), a record that is read has 30 tested before 29, and a part inside a
 * directory is judged only after the directory itself; 101 is judged before all others, 100 after
 * them.
 *
 * "Changes" below names everything a call may change; the rest stays, also on a refusal.
 *
 * WHAT THE CALLER SUPPLIES (docs/INTEGRATION.md says why)
 *
 * - x86-64, the System V calling convention, a stack aligned as it asks.
 * - memcpy and memset with their usual meaning. No archive asks for more.
 * - The archive that fits: libguc-kernel.a where SSE, the red zone or indirect jumps are not
 *   allowed; libguc.a, libguc-fast.a or libguc-v3.a (AVX2) elsewhere.
 * - Pointers to what is there: so many dwords, records or bytes as their count says, dwords aligned
 *   to 4 bytes, records and a wall to 2. With count 0 nothing is touched, and NULL will do.
 * - Slices, sides, descriptor, wall: none overlaps another where one of them is written. Where that
 *   cannot be promised link libguc.a: the other archives are compiled on the strength of it.
 * - Ordinary memory. The code makes plain loads and stores of any width.
 * - One call at a time on one side. The two sides of a channel may run on different processors:
 *   guc_live.h has the calls for that, with their fences.
 *
 * The proofs are of memory that nobody else writes while a call runs. A side, an output, a
 * destination and the word of the descriptor that a side publishes must have it so. Where
 * somebody writes other lent memory meanwhile, this holds, and is tested on each archive and not
 * proved: each word that a call judges is read once (but for a record that is gone through twice,
 * below), and what was judged is what is stored, handed out or answered, so nothing outside the
 * slices is touched. The dwords of a message behind its
 * second, and copied bytes, are those that lie there when they are copied; those in a ring that
 * a send has stored in, whoever wrote there last. */
#ifndef GUC_H
#define GUC_H

#if !defined(__x86_64__) || defined(__ILP32__) || defined(_WIN32) || !defined(__GNUC__)
#error "libguc is made for x86-64 with the System V calling convention, gcc or clang"
#endif

#ifdef __KERNEL__
#include <linux/types.h>
#else
#include <stddef.h>
#include <stdint.h>
#endif

#ifdef __cplusplus
extern "C" {
#endif

/* An answer must be looked at. What is kept stays in each object, also where a linker drops what
 * nobody calls (gcc 11, clang 13 and later). */
#define GUC_ANSWER __attribute__((warn_unused_result))
#ifdef __has_attribute
#if __has_attribute(retain)
#define GUC_KEPT __attribute__((used, retain))
#endif
#endif
#ifndef GUC_KEPT
#define GUC_KEPT __attribute__((used))
#endif

/* The version of this interface, and a function of the archive that has it in its name: an object
 * compiled with a header of another version does not link. (Of 1, which had no such name, it does.) */
#define GUC_INTERFACE 3
uint32_t guc_interface_3(void);
static uint32_t (*const guc_interface_linked)(void) GUC_KEPT = guc_interface_3;

/* The answers: name, number, and the sentence that guc_strerror has for a log. 0 to 35 are the
 * specification's (from 22 on by change requests; 22 is tested after 20 and before 21), 100 and 101
 * this interface's. 1 is not given here, for struct guc_descriptor is 16 dwords. 7 sets STATUS to 1, 8
 * to 4, 9 to 2; 13 moves HEAD past the message. */
#define GUC_NUMBERS(X) \
	X(GUC_OK, 0, "accepted") \
	X(GUC_BAD_DESCRIPTOR, 1, "the descriptor is not 16 dwords") \
	X(GUC_BAD_BUFFER, 2, "a ring has a multiple of 1024 dwords, from 1024 to 16384") \
	X(GUC_BAD_STATE, 3, "the state does not fit this call and this ring") \
	X(GUC_BAD_MESSAGE, 4, "the message is malformed") \
	X(GUC_SHORT_OUTPUT, 5, "the output is shorter than 256 dwords") \
	X(GUC_BROKEN, 6, "STATUS is not 0") \
	X(GUC_OVERFLOW, 7, "HEAD or TAIL is outside the ring") \
	X(GUC_MISMATCH, 8, "TAIL is not the sender's own, or HEAD not the receiver's own") \
	X(GUC_UNDERFLOW, 9, "the message is longer than what is used") \
	X(GUC_FULL, 10, "the message is longer than what is free") \
	X(GUC_EMPTY, 11, "nothing pending") \
	X(GUC_OUT_OF_TURN, 12, "publish before the last dword moved, or a move after it") \
	X(GUC_MALFORMED, 13, "the message is whole but malformed") \
	X(GUC_BAD_FIELD, 14, "a field too wide, NUM_DWORDS 0, room above 256, or a name not 1 to 12 bytes without a zero") \
	X(GUC_SHORT_BLOB, 15, "too short for its header") \
	X(GUC_CSS_SIZES, 16, "the sizes in its header disagree") \
	X(GUC_CSS_BEYOND, 17, "a part of the image lies beyond its end") \
	X(GUC_CPD_HEADER, 18, "the directory's marker is wrong or its header length is below 20") \
	X(GUC_CPD_ENTRIES, 19, "the directory's entries lie beyond its end") \
	X(GUC_NO_ENTRY, 20, "no entry has that name") \
	X(GUC_CPD_BEYOND, 21, "the entry's part lies beyond the directory's end") \
	X(GUC_DUPLICATE_ENTRY, 22, "more than one entry has that name") \
	X(GUC_TABLE_FULL, 26, "every record of the table is open") \
	X(GUC_NO_REQUEST, 27, "the message is no request to send, or no reply to an open one") \
	X(GUC_NO_REPLY_ROOM, 28, "the reply buffer would have too little room for the answer") \
	X(GUC_BAD_RECORD, 29, "the record has a bad number, or a message that is not whole") \
	X(GUC_SHORT_ROOM, 30, "the output has too little room for the record") \
	X(GUC_BAD_TABLE, 35, "a table has 1 to 256 records, no two open with one fence") \
	X(GUC_NO_ROOM, 100, "the destination is too short") \
	X(GUC_NO_SUCH, 101, "no such type or component")

enum guc_number {
#define GUC_X(name, number, sentence) name = number,
	GUC_NUMBERS(GUC_X)
#undef GUC_X
};

enum {
	GUC_STATE_WORDS = 260,     /* dwords of a side that can make steps */
	GUC_DESC_DWORDS = 16,      /* dwords of a descriptor */
	GUC_MESSAGE_DWORDS = 256,  /* longest message, and the least output */
	GUC_RING_UNIT = 1024,      /* N is a multiple of it */
	GUC_RING_MIN = 1024,
	GUC_RING_MAX = 16384,
	GUC_NAME_BYTES = 12,       /* longest name of a directory's entry */
	GUC_RECORDS_MAX = 256,     /* most records of a table of requests */
	GUC_REPLY_DWORDS_MAX = 256, /* most reply dwords set aside for a request */
	GUC_FIRST_LAST = 65535,    /* the last fence of a fresh wall: the first one given is 0 */
	GUC_ENTRY_DWORDS_MAX = 258, /* most dwords of a message in a run: direction, L, and 256 */
	GUC_ENTRY_BYTES_MAX = 1283 /* most bytes of a message in a record file */
};

/* STATUS of a descriptor. Anything but good is broken, unknown bits too. */
enum guc_status {
	GUC_STATUS_GOOD = 0,
	GUC_STATUS_OVERFLOW = 1,  /* an offset was too large: set on 7 */
	GUC_STATUS_UNDERFLOW = 2, /* a message was truncated: set on 9 */
	GUC_STATUS_MISMATCH = 4,  /* an offset was modified: set on 8 */
	GUC_STATUS_UNUSED = 8     /* never set here */
};

/* HXG types; only 4 is unknown. A fast request is laid out as a request and wants no success
 * reply (Linux: GUC_HXG_TYPE_FAST_REQUEST). */
enum guc_type {
	GUC_TYPE_REQUEST = 0,      /* first: data 27:16, second: action 15:0 */
	GUC_TYPE_EVENT = 1,        /* first: data 27:16, second: action 15:0 */
	GUC_TYPE_FAST_REQUEST = 2, /* first: data 27:16, second: action 15:0 */
	GUC_TYPE_BUSY = 3,         /* first: counter 27:0 */
	GUC_TYPE_RETRY = 5,        /* first: reason 27:0 */
	GUC_TYPE_FAILURE = 6,      /* first: hint 27:16, second: error 15:0 */
	GUC_TYPE_SUCCESS = 7       /* first: data 27:0 */
};

enum guc_origin { GUC_ORIGIN_HOST = 0, GUC_ORIGIN_GUC = 1 };

/* Components of a CSS image, in their order after the 128-byte header. */
enum guc_component {
	GUC_PART_UCODE = 0, GUC_PART_RSA = 1, GUC_PART_MODULUS = 2, GUC_PART_EXPONENT = 3
};

/* The words both sides share. reserved is never read, and changed by an opening alone, which
 * zeroes it. Looks and whole calls read the three others; stores, copies and publishes none. */
struct guc_descriptor {
	uint32_t head;   /* next dword to read */
	uint32_t tail;   /* next dword to write */
	uint32_t status; /* enum guc_status */
	uint32_t reserved[GUC_DESC_DWORDS - 3];
};

/* A side that makes steps and whole calls. The words are the library's: open writes them, calls
 * change them, the caller may copy them whole and ask for
 *   own    the own tail (sender) or own head (receiver),
 *   len    L of the message under way, 0 when idle,
 *   moved  dwords stored (sender) or copied (receiver) so far. */
struct guc_sender { uint32_t words[GUC_STATE_WORDS]; };
struct guc_receiver { uint32_t words[GUC_STATE_WORDS]; };

static inline uint32_t guc_sender_own(const struct guc_sender *s) { return s->words[1]; }
static inline uint32_t guc_sender_len(const struct guc_sender *s) { return s->words[2]; }
static inline uint32_t guc_sender_moved(const struct guc_sender *s) { return s->words[3]; }
static inline uint32_t guc_receiver_own(const struct guc_receiver *r) { return r->words[1]; }
static inline uint32_t guc_receiver_len(const struct guc_receiver *r) { return r->words[2]; }
static inline uint32_t guc_receiver_moved(const struct guc_receiver *r) { return r->words[3]; }

/* A side that makes whole calls only. Between them it is always idle, so that these two words are
 * all of it, and its calls are the fastest. A fresh channel's is { n, 0 }. (Of no side, of either
 * kind, may two copies be used: that would be two senders.) */
struct guc_whole_sender { uint32_t n, own; };   /* the N it was made for, its own tail */
struct guc_whole_receiver { uint32_t n, own; }; /* the N it was made for, its own head */

/* What calls answer: a number, and what is 0 on a refusal. */
struct guc_received {
	uint32_t code;
	size_t len; /* L */
};
struct guc_packed {
	uint32_t code;
	uint32_t header; /* the CTB header */
	uint32_t word;   /* HXG dword 0 */
};
struct guc_unpacked {
	uint32_t code;
	uint32_t origin;     /* enum guc_origin */
	uint32_t fence;
	uint32_t num_dwords; /* 1 to 255; the message has one more */
	uint32_t type;       /* enum guc_type */
	uint32_t first;      /* by type */
	uint32_t second;     /* by type; 0 for a type with one field */
};

/* A record of a table of requests. 0 in open is free, whatever the others hold; any other number is
 * an open request. A fresh or closed record is all zeros. */
struct guc_record {
	uint16_t open;   /* 0 free, else open; an opening writes 1 */
	uint16_t fence;
	uint16_t action;
	uint16_t count;  /* times answered busy, at most 65,535 */
	uint16_t room;   /* reply dwords set aside for it; an opening writes 0 to 256 */
};

/* What the calls of one wall share: the last fence given out, and how many dwords the buffer has in
 * which the replies come. */
struct guc_wall { uint16_t last; uint16_t n; };

/* What a call of a wall answers: a number, then an opening's fence, or a reply's kind with the
 * request's action and count. The others are 0, and on a refusal all but code are. */
struct guc_wall_answer {
	uint32_t code;
	uint32_t kind;   /* GUC_TYPE_BUSY, _RETRY, _FAILURE or _SUCCESS */
	uint16_t fence;
	uint16_t action;
	uint16_t count;  /* this busy in it */
};

/* A message's direction in a record. */
enum guc_direction { GUC_SENT = 0, GUC_RECEIVED = 1 };

/* What is wrong in the message or with the number that a 29 names, in the specification's order; 0
 * with any other answer. A number of more than five bytes is one above 32 bits. */
enum guc_fault {
	GUC_FAULT_UNFINISHED = 1, /* the file ends within a number */
	GUC_FAULT_MISSING = 2,    /* the file or the run ends within a message, before a number */
	GUC_FAULT_TOO_LONG = 3,   /* a number with a last byte of 0 that should not be there */
	GUC_FAULT_TOO_WIDE = 4,   /* a number above 32 bits */
	GUC_FAULT_DIRECTION = 5,  /* above 1 */
	GUC_FAULT_LENGTH = 6,     /* L is not 1 to 256 */
	GUC_FAULT_HEADER = 7      /* 1 + NUM_DWORDS of the header is not L */
};

struct guc_added {
	uint32_t code, fault;
	size_t place;   /* where the next message goes; on a refusal as it was */
};
struct guc_written {
	uint32_t code, fault;
	size_t at;      /* 29: the dword where the bad message starts, its direction; else 0 */
	size_t written; /* bytes; 0 on a refusal, of a run that nobody rewrites meanwhile */
};
struct guc_readback {
	uint32_t code, fault;
	size_t at;      /* 29: the byte where the first bad number starts; else 0 */
	size_t written; /* dwords laid; 0 on 30, of a file that nobody rewrites meanwhile */
	size_t took;    /* bytes of the file that these messages take; 0 on 30, in the same way */
};

/* truncated is 1 where the image has neither modulus nor exponent. */
struct guc_css { uint32_t code, truncated; };

struct guc_part {
	uint32_t code, truncated;
	size_t start; /* byte in the lent blob */
	size_t len;   /* bytes */
};

struct guc_copied {
	uint32_t code, truncated; /* truncated also beside 100 */
	size_t len;               /* 0: bytes copied; 100: bytes needed */
};
struct guc_version { uint32_t code, major, minor, patch; };
struct guc_manifest { uint32_t code, major, minor, hotfix, build; };

/* THE CHANNEL
 *
 * ring and n are the ring of N = n dwords, a multiple of GUC_RING_UNIT from GUC_RING_MIN to
 * GUC_RING_MAX. used = (TAIL - HEAD) mod N, free = N - 1 - used; equal offsets mean empty.
 *
 * A side stays as it was on every refusal but 13 and that of an opening. A look or a whole call
 * wants an idle side, the other steps one between its look and its publish; else 3. No function
 * undoes a look: a call begun in steps is finished in steps, or the channel is opened again.
 *
 * 6 to 9 mean a broken channel: after 7, 8 and 9 STATUS is set, and each later look or whole call
 * that 2 to 5 don't refuse answers 6 until the channel is opened again. */

/* Opens a channel with an empty ring.
 * Answers 0 or 2.
 * Changes both sides: idle with own offset 0, or all zeros on a refusal, so that they fit no
 * call. The descriptor: all zeros on 0. What the sides held before is not read. To open a side of
 * each kind on one channel, make both openings before any other call. */
GUC_ANSWER uint32_t guc_open(struct guc_sender *s, struct guc_receiver *r,
    struct guc_descriptor *desc, const uint32_t *ring, size_t n);

/* A send's first step: judges the message, then STATUS, HEAD and TAIL, and takes a copy of the
 * message into the side. msg must have exactly L = 1 + NUM_DWORDS dwords.
 * Answers 0, 2, 3, 4, 6, 7, 8 or 10.
 * Changes the side on 0; STATUS on 7 and 8. */
GUC_ANSWER uint32_t guc_send_look(struct guc_sender *s, struct guc_descriptor *desc,
    const uint32_t *ring, size_t n, const uint32_t *msg, size_t msg_len);

/* Stores the message's next dword, k, at (own tail + k) mod N.
 * Answers 0, 2, 3, or 12 when all L are stored.
 * Changes the side and that one dword of the ring on 0. */
GUC_ANSWER uint32_t guc_send_store(struct guc_sender *s, const struct guc_descriptor *desc,
    uint32_t *ring, size_t n);

/* Every dword that is left: what that many guc_send_store do, one after another, in at most two
 * straight runs; where none is left, nothing.
 * Answers 0, 2 or 3.
 * Changes the side and those dwords of the ring on 0. */
GUC_ANSWER uint32_t guc_send_store_all(struct guc_sender *s, const struct guc_descriptor *desc,
    uint32_t *ring, size_t n);

/* A send's last step: TAIL = (own tail + L) mod N.
 * Answers 0, 2, 3, or 12 when dwords are still to be stored.
 * Changes the side (idle, past the message) and TAIL on 0. */
GUC_ANSWER uint32_t guc_send_publish(struct guc_sender *s, struct guc_descriptor *desc,
    const uint32_t *ring, size_t n);

/* A whole send: look, L stores and publish, or the look's refusal.
 * Answers as guc_send_look.
 * Changes the side, the L dwords of the ring and TAIL on 0; STATUS on 7, 8. */
GUC_ANSWER uint32_t guc_send(struct guc_sender *s, struct guc_descriptor *desc, uint32_t *ring,
    size_t n, const uint32_t *msg, size_t msg_len);

/* A receive's first step: judges STATUS, HEAD and TAIL and, where the ring is not empty, copies
 * the header dword into the side.
 * Answers 0, 2, 3, 6, 7, 8, 9 or 11.
 * Changes the side on 0; STATUS on 7, 8 and 9. */
GUC_ANSWER uint32_t guc_receive_look(struct guc_receiver *r, struct guc_descriptor *desc,
    const uint32_t *ring, size_t n);

/* Copies the message's next dword into the side, L - 1 times in all.
 * Answers 0, 2, 3, or 12 when all L are copied.
 * Changes the side on 0. */
GUC_ANSWER uint32_t guc_receive_copy(struct guc_receiver *r, const struct guc_descriptor *desc,
    const uint32_t *ring, size_t n);

/* Every dword that is left: what that many guc_receive_copy do, one after another, in at most two
 * straight runs; where none is left, as after the look at a message of one dword, nothing.
 * Answers 0, 2 or 3.
 * Changes the side on 0. */
GUC_ANSWER uint32_t guc_receive_copy_all(struct guc_receiver *r,
    const struct guc_descriptor *desc, const uint32_t *ring, size_t n);

/* A receive's last step: judges the copied message, HEAD = (own head + L) mod N. The ring is not
 * read again. out must have at least GUC_MESSAGE_DWORDS dwords.
 * Answers 0 and L, or 2, 3, 5, 12 (dwords still to be copied) or 13.
 * Changes, on 0, the side (idle, past the message), HEAD and the first L dwords of out; on 13 the
 * side and HEAD in the same way, and not out. */
GUC_ANSWER struct guc_received guc_receive_publish(struct guc_receiver *r,
    struct guc_descriptor *desc, const uint32_t *ring, size_t n, uint32_t *out, size_t out_len);

/* A whole receive: look, copies and publish, or the look's refusal.
 * Answers 0 and L, or 2, 3, 5, 6, 7, 8, 9, 11 or 13.
 * Changes what guc_receive_publish changes on 0 and 13; STATUS on 7, 8 and 9. */
GUC_ANSWER struct guc_received guc_receive(struct guc_receiver *r, struct guc_descriptor *desc,
    const uint32_t *ring, size_t n, uint32_t *out, size_t out_len);

/* The opening and the whole calls of sides that make no others. They answer and change what
 * guc_open, guc_send and guc_receive do; 3 means here only that the side was made for another N,
 * or that its own offset is not below N. */
GUC_ANSWER uint32_t guc_whole_open(struct guc_whole_sender *s, struct guc_whole_receiver *r,
    struct guc_descriptor *desc, const uint32_t *ring, size_t n);
GUC_ANSWER uint32_t guc_whole_send(struct guc_whole_sender *s, struct guc_descriptor *desc,
    uint32_t *ring, size_t n, const uint32_t *msg, size_t msg_len);
GUC_ANSWER struct guc_received guc_whole_receive(struct guc_whole_receiver *r,
    struct guc_descriptor *desc, const uint32_t *ring, size_t n, uint32_t *out, size_t out_len);

/* MESSAGES
 *
 * CTB header: fence 31:16, format 15:12 (0), reserved 11:8 (0), NUM_DWORDS 7:0. HXG dword 0:
 * origin 31, type 30:28, then by type as enum guc_type says. */

/* Packs the first two dwords of a message.
 * Answers 0; 101 for a type that is none of enum guc_type; 14 for any field too wide for its
 * place, for num_dwords 0, and for a second other than 0 where the type has one field.
 * Changes nothing. */
GUC_ANSWER struct guc_packed guc_pack(uint32_t origin, uint32_t fence, uint32_t num_dwords,
    uint32_t type, uint32_t first, uint32_t second);

/* Unpacks the first two dwords of a whole message of len dwords. The others stay where they lie.
 * Packing what it gives gives the same two dwords.
 * Answers 0, or 4 for a malformed message.
 * Changes nothing. */
GUC_ANSWER struct guc_unpacked guc_unpack(const uint32_t *msg, size_t len);

/* A WALL OF REQUESTS
 *
 * Many requests under way at once: each has a fence of its own and room for its answer set aside, and
 * each reply finds its request. table and records are a table of that many records, 1 to
 * GUC_RECORDS_MAX; table and wall are the caller's, one call at a time. Make the wall fresh once,
 * send requests through guc_wall_send, receive, and hand each received message to guc_wall_reply.
 *
 * Each call but guc_wall_age answers 35, before any other number, for another number of records and
 * (but for guc_wall_fresh) for two open records with one fence; then 2 for a reply buffer whose N is not
 * allowed. A send or a reply takes each record into a copy of its own once, judges and uses that,
 * and writes at most one record. */

/* Makes a wall fresh, whatever it holds: every record all zeros, the last fence 65,535. reply_n is N
 * of the buffer in which the replies will come.
 * Answers 0, or 35 for another number of records, or 2 for a reply_n that is not allowed.
 * Changes table and wall on 0. */
GUC_ANSWER uint32_t guc_wall_fresh(struct guc_wall *wall, struct guc_record *table,
    size_t records, size_t reply_n);

/* Sends a request of msg_len dwords whole, as guc_send does, with a fence of the wall's in the place
 * of its own, and keeps a record of it. The fence is the next after wall's last that is not open,
 * counting up and wrapping after 65,535; the record is the lowest free one, with the action of the
 * message, and with so many reply dwords set aside as room says. A reply then finds room in the
 * reply buffer, if wall's n is that buffer's, wall was made fresh and only these calls have written to
 * it and to table, every message that lies there unread answers an open request, and those that
 * answer one request, busy ones and the new one too, have together no more dwords than its room. No
 * dword of the message is read twice: what is judged is what is sent. Where another processor reads
 * the ring, use guc_live_wall_send.
 * Answers 0 and the fence, or, tested in this order, 35, 2 (wall's N), 14 (room is above 256), 27
 * (the message is malformed, or of another type than request), 26 (every record is open), 28 (what
 * all open requests have set aside plus room exceeds wall's N - 1), or the ring's own, as guc_send
 * gives it: 2 (n), 3, 6, 7, 8 or 10. It never answers 4.
 * Changes that record, wall, s, TAIL and the ring on 0; STATUS on 7 and 8. */
GUC_ANSWER struct guc_wall_answer guc_wall_send(struct guc_wall *wall, struct guc_record *table,
    size_t records, struct guc_sender *s, struct guc_descriptor *desc, uint32_t *ring, size_t n,
    const uint32_t *msg, size_t msg_len, uint32_t room);

/* Matches a received message of msg_len dwords to the open request with its fence. Success, failure
 * and retry close it, which ends what was set aside for it (after retry the request is to be sent
 * again, as a new one); busy adds one to its count, which stops at 65,535, and leaves it open. The
 * origin is not asked.
 * Answers 0 with the kind, the request's action and its count, or 35, 2 (wall's N), 4 (malformed) or
 * 27 (no open request has the fence, or the message is a request, an event or a fast request).
 * Changes that record on 0; wall stays. */
GUC_ANSWER struct guc_wall_answer guc_wall_reply(const struct guc_wall *wall,
    struct guc_record *table, size_t records, const uint32_t *msg, size_t msg_len);

/* The age of a fence beside the newest one: fence less newest, modulo 65,536, from -32,768 to
 * 32,767. 0 is the newest itself, below 0 are older ones, by up to 32,768 fences: one further behind
 * reads above 0. fence 0 with newest 65,535 is 1. The newest of a wall is its last. */
GUC_ANSWER int32_t guc_wall_age(uint16_t fence, uint16_t newest);

/* A RECORD TO MAIL HOME
 *
 * What went over a channel, message by message. In memory it is a run of dwords: for each message
 * its direction (0 sent, 1 received), its L, then its L dwords, L from 1 to 256 and 1 + NUM_DWORDS
 * of its header; nothing else is asked of it, so a malformed message can be kept. In a file each
 * of these numbers is cut into groups of seven bits, a byte each, lowest first, with the top bit
 * set where another follows, in as few bytes as it needs: 300 is AC 02.
 *
 * A write goes through its run twice, a read through its file where room is below len. Where
 * somebody rewrites it meanwhile, what is written or laid is what the last pass judged, from the
 * very dwords or bytes, one whole message after another, never past the output; a 29 or 30 that
 * comes then says how much was written before it.
 *
 * (struct guc_record is a wall's, and no part of this.) */

/* Adds a message of msg_len dwords to the run_len dwords of run, from place on: 0 for the first, then
 * what the add before it answered. What lies before place is not judged.
 * Answers 0 with the place for the next message; or 29 (direction above 1, msg_len not 1 to 256, or
 * a header that disagrees with it), or 30 where it does not fit from place on.
 * Changes the msg_len + 2 dwords from place on, on 0. */
GUC_ANSWER struct guc_added guc_record_add(uint32_t *run, size_t run_len, size_t place,
    uint32_t direction, const uint32_t *msg, size_t msg_len);

/* The bytes that a run of so many dwords needs at most: five each (SIZE_MAX where that is more). */
GUC_ANSWER size_t guc_record_write_bound(size_t dwords);

/* Writes a run into a file of room bytes. Of a run that was filled by guc_record_add, its dwords up
 * to the last place. The whole run is judged before the room.
 * Answers 0 with the bytes written; or 29 with the place of the first bad message's direction: its
 * direction, L or header is bad, or the run ends within it; or 30 where the file needs more room.
 * Changes the first written bytes of file, on 0. */
GUC_ANSWER struct guc_written guc_record_write(const uint32_t *run, size_t run_len, uint8_t *file,
    size_t room);

/* Reads a file back into a run of room dwords.
 * Answers 0 where the file is whole messages to its end; or 29 with the byte where the first bad
 * number starts (len where one is missing): the whole messages before it are laid all the same; or
 * 30 where what is to be laid does not fit, whether the file is bad or not. As many dwords as the
 * file has bytes are always enough. A long file can be read piece by piece, each from the byte that
 * the one before ended at (took): 29 then says no more than that the piece ends within a message,
 * unless it is the last, or has GUC_ENTRY_BYTES_MAX bytes or more and took is 0: then it is bad.
 * Changes the first written dwords of run, on 0 and 29. */
GUC_ANSWER struct guc_readback guc_record_read(const uint8_t *file, size_t len, uint32_t *run,
    size_t room);

/* FIRMWARE
 *
 * A blob is judged afresh in each call, and once. In none of these is it changed; the copies
 * change dst and only on 0: its first len bytes, never the rest. A start and length hold for the
 * bytes that were judged: where the blob may be written later, use the copies, and judge the copy
 * by what reads it. which is an enum guc_component, anything else is answered by 101. No
 * signature is checked. */

/* Judges a CSS image. Truncated: the blob ends before modulus and exponent do.
 * Answers 0, 15, 16 or 17. */
GUC_ANSWER struct guc_css guc_css_answer(const uint8_t *blob, size_t len);

/* Where a component lies. The modulus and the exponent of a truncated image are answered by 0
 * with truncated 1, start 0 and len 0.
 * Answers 0, 15, 16, 17 or 101. */
GUC_ANSWER struct guc_part guc_css_part(const uint8_t *blob, size_t len, uint32_t which);

/* Copies a component to dst, which has room bytes. A component of 0 bytes, and the modulus and
 * exponent of a truncated image, are answered by 0 with len 0.
 * Answers 0, 15, 16, 17, 100 or 101. */
GUC_ANSWER struct guc_copied guc_css_copy(const uint8_t *blob, size_t len, uint32_t which,
    uint8_t *dst, size_t room);

/* The version of a CSS image, truncated or not.
 * Answers 0, 15, 16 or 17. */
GUC_ANSWER struct guc_version guc_css_version(const uint8_t *blob, size_t len);

/* A literal name of an entry, and its length. */
#define GUC_NAME(literal) (literal), sizeof(literal) - 1

/* Where the part of a code partition directory lies whose entry has this name. The name has 1 to
 * 12 bytes and no zero among them, nor one behind them that counts: GUC_NAME("huc_fw") is a
 * literal and its length. A name that more than one entry has is refused by 22, wherever they
 * stand, also where the entries are alike or their parts lie beyond the blob.
 * Answers 0, 14, 15, 18, 19, 20, 22 or 21. */
GUC_ANSWER struct guc_part guc_cpd_part(const uint8_t *blob, size_t len, const char *name,
    size_t name_len);

/* Copies that part to dst, which has room bytes.
 * Answers 0, 14, 15, 18, 19, 20, 22, 21 or 100. */
GUC_ANSWER struct guc_copied guc_cpd_copy(const uint8_t *blob, size_t len, const char *name,
    size_t name_len, uint8_t *dst, size_t room);

/* The firmware version in the directory's part "HUCP.man".
 * Answers 0, 15 (blob below 20 bytes or part below 44), 18, 19, 20, 22 or 21. */
GUC_ANSWER struct guc_manifest guc_manifest_version(const uint8_t *blob, size_t len);

/* The CSS image that is the directory's part "huc_fw", judged as a blob of its own after the
 * directory: as the guc_css functions above, with start counted from the start of the whole blob
 * (0 for the empty part of a refusal or of a truncated image).
 * Answer 0, 15, 16, 17, 18, 19, 20, 22 or 21; guc_huc_part also 101, guc_huc_copy also 100 and
 * 101. */
GUC_ANSWER struct guc_css guc_huc_answer(const uint8_t *blob, size_t len);
GUC_ANSWER struct guc_part guc_huc_part(const uint8_t *blob, size_t len, uint32_t which);
GUC_ANSWER struct guc_copied guc_huc_copy(const uint8_t *blob, size_t len, uint32_t which,
    uint8_t *dst, size_t room);
GUC_ANSWER struct guc_version guc_huc_version(const uint8_t *blob, size_t len);

static inline const char *guc_strerror(uint32_t number)
{
	switch (number) {
#define GUC_X(name, value, sentence) case value: return sentence;
	GUC_NUMBERS(GUC_X)
#undef GUC_X
	default: return "no answer has this number";
	}
}

#ifdef __cplusplus
}
#endif

#endif /* GUC_H */
