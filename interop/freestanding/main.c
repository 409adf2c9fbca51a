// A program with no C library at all, linked with libguc.a: two channels that another processor could read and write meanwhile
// (guc_live.h), one with two-word sides and whole calls, one in steps; a wall of requests, sent with room set aside for their answers,
// whose replies come out of order; and a record of messages, written as a file and read back. It prints what came back. x86-64 Linux; see
// docs/INTEGRATION.md.
#include "guc_live.h"

enum { N = 1024, WRITE = 1, EXIT = 60 };
static struct guc_descriptor desc;
static uint32_t ring[N], out[GUC_MESSAGE_DWORDS];

// All that the archive asks of its surroundings. String instructions, so that gcc makes no call to memset out of memset.
void *memset(void *to, int byte, size_t len)
{
    void *p = to;
    __asm__ volatile("rep stosb" : "+D"(p), "+c"(len) : "a"(byte) : "memory");
    return to;
}
void *memcpy(void *restrict to, const void *restrict from, size_t len)
{
    void *p = to;
    __asm__ volatile("rep movsb" : "+D"(p), "+S"(from), "+c"(len) : : "memory");
    return to;
}

static long syscall3(long number, long a, long b, long c)
{
    long r;
    __asm__ volatile("syscall" : "=a"(r) : "a"(number), "D"(a), "S"(b), "d"(c) : "rcx", "r11", "memory");
    return r;
}

static char line[2048];
static size_t filled;
static void put(const char *s) { while (*s && filled < sizeof line) line[filled++] = *s++; }
static void put_number(uint32_t x)
{
    char digits[11], *p = digits + 10;
    *p = 0;
    do *--p = '0' + x % 10; while (x /= 10);
    put(p);
}
static void put_dwords(const uint32_t *d, size_t len)
{
    for (size_t i = 0; i < len; i++) {
        char hex[10] = " 00000000";
        for (int j = 0; j < 8; j++) hex[8 - j] = "0123456789abcdef"[d[i] >> 4 * j & 15];
        put(hex);
    }
}
static void put_bytes(const uint8_t *b, size_t len)
{
    for (size_t i = 0; i < len; i++) {
        char hex[4] = {' ', "0123456789abcdef"[b[i] >> 4], "0123456789abcdef"[b[i] & 15], 0};
        put(hex);
    }
}
static void put_answer(const char *what, uint32_t code) { put(what); put_number(code); }

static void put_received(const char *what, struct guc_received r)
{
    put_answer(what, r.code);
    put_dwords(out, r.len);
}

static const uint32_t msg[4] = {0x12340003, 0x00000001, 0xcafe0001, 0xcafe0002};

static void whole(void)
{
    static struct guc_whole_sender s;
    static struct guc_whole_receiver r;
    put_answer("open ", guc_whole_open(&s, &r, &desc, ring, N));
    put_answer("; send ", guc_live_whole_send(&s, &desc, ring, N, msg, 4));
    put_received("; receive ", guc_live_whole_receive(&r, &desc, ring, N, out, GUC_MESSAGE_DWORDS));
    put_received("; receive ", guc_live_whole_receive(&r, &desc, ring, N, out, GUC_MESSAGE_DWORDS));
    put_answer("; HEAD ", desc.head);
    put_answer(", TAIL ", desc.tail);
    put("\n");
}

static void steps(void)
{
    static struct guc_sender s;
    static struct guc_receiver r;
    put_answer("open ", guc_open(&s, &r, &desc, ring, N));
    put_answer("; look ", guc_live_send_look(&s, &desc, ring, N, msg, 4));
    put_answer(", store ", guc_live_send_store(&s, &desc, ring, N));
    put_answer(", store all ", guc_live_send_store_all(&s, &desc, ring, N));
    put_answer(", publish ", guc_live_send_publish(&s, &desc, ring, N));
    put_answer("; look ", guc_live_receive_look(&r, &desc, ring, N));
    put_answer(", copy ", guc_live_receive_copy(&r, &desc, ring, N));
    put_answer(", copy all ", guc_live_receive_copy_all(&r, &desc, ring, N));
    put_received(", publish ", guc_live_receive_publish(&r, &desc, ring, N, out, GUC_MESSAGE_DWORDS));
    put_answer("; HEAD ", desc.head);
    put_answer(", TAIL ", desc.tail);
    put("\n");
    desc.tail = N; // what no honest sender writes
    put("receive: ");
    put(guc_strerror(guc_live_receive(&r, &desc, ring, N, out, GUC_MESSAGE_DWORDS).code));
    put_answer("; STATUS ", desc.status);
    put("\n");
}

// A reply of the GuC, which has fence and type, and what the wall says of it.
static void put_reply(struct guc_wall *w, struct guc_record *table, uint32_t fence, uint32_t type)
{
    const uint32_t reply[2] = {fence << 16 | 1, 0x80000000 | type << 28};
    struct guc_wall_answer a = guc_wall_reply(w, table, 4, reply, 2);
    put_answer(", reply ", a.code);
    if (a.code) return;
    put_answer(" kind ", a.kind);
    put_answer(" action ", a.action);
    put_answer(" count ", a.count);
}

static void wall(void)
{
    static const uint32_t rooms[6] = {256, 256, 256, 256, 255, 0}; // of 1023 in all
    static struct guc_wall w;
    static struct guc_record table[4];
    static struct guc_sender s;
    static struct guc_receiver r;
    uint32_t request[2] = {0x12340001, 0};
    put_answer("open ", guc_open(&s, &r, &desc, ring, N));
    put_answer(", fresh ", guc_wall_fresh(&w, table, 4, N));
    for (int k = 0; k < 6; k++) {
        request[1] = 11 * (k + 1);
        struct guc_wall_answer a = guc_live_wall_send(&w, table, 4, &s, &desc, ring, N, request, 2, rooms[k]);
        put_answer(", send ", a.code);
        if (!a.code) put_answer(" fence ", a.fence);
    }
    put_answer("; TAIL ", desc.tail);
    put_received(", receive ", guc_live_receive(&r, &desc, ring, N, out, GUC_MESSAGE_DWORDS));
    put_received(", receive ", guc_live_receive(&r, &desc, ring, N, out, GUC_MESSAGE_DWORDS));
    put("\n");
    put_answer("last ", w.last);
    put_reply(&w, table, 2, GUC_TYPE_BUSY);
    put_reply(&w, table, 1, GUC_TYPE_FAILURE);
    put_reply(&w, table, 2, GUC_TYPE_SUCCESS);
    put_reply(&w, table, 1, GUC_TYPE_SUCCESS); // a stray one: that request is closed
    put_reply(&w, table, 0, GUC_TYPE_EVENT);
    put_reply(&w, table, 0, GUC_TYPE_RETRY);
    put_answer(", send fence ", guc_live_wall_send(&w, table, 4, &s, &desc, ring, N, request, 2, 256).fence);
    put_answer(" room ", table[0].room);
    put_answer(", older by ", (uint32_t)-guc_wall_age(0, w.last));
    put("\n");
}

static uint32_t run[64], back[64];
static size_t kept; // dwords of run that are filled

static void keep(uint32_t direction, const uint32_t *m, size_t len)
{
    struct guc_added a = guc_record_add(run, 64, kept, direction, m, len);
    put_answer(", kept ", a.code);
    kept = a.place;
}

static void put_read(const uint8_t *file, size_t len)
{
    struct guc_readback r = guc_record_read(file, len, back, 64);
    put_answer("; read ", r.code);
    if (r.code) put_answer(" at ", (uint32_t)r.at);
    if (r.code) put_answer(" fault ", r.fault);
    put_answer(", dwords ", (uint32_t)r.written);
    for (size_t i = 0; i < r.written; i++) if (back[i] != run[i]) put(" OTHERS");
}

// Each message is kept when it was sent or received; a malformed one can be kept too.
static void record(void)
{
    static struct guc_whole_sender s;
    static struct guc_whole_receiver r;
    static uint8_t file[5 * 64];
    const uint32_t malformed[2] = {0x00051001, 0x4000012c};
    put_answer("open ", guc_whole_open(&s, &r, &desc, ring, N));
    put_answer(", send ", guc_live_whole_send(&s, &desc, ring, N, msg, 4));
    keep(GUC_SENT, msg, 4);
    struct guc_received got = guc_live_whole_receive(&r, &desc, ring, N, out, GUC_MESSAGE_DWORDS);
    put_answer(", receive ", got.code);
    keep(GUC_RECEIVED, out, got.len);
    keep(GUC_RECEIVED, malformed, 2);
    keep(GUC_RECEIVED, malformed, 1);
    put_answer(", dwords ", (uint32_t)kept);
    put_answer("; one byte too little ", guc_record_write(run, kept, file, 45).code);
    struct guc_written w = guc_record_write(run, kept, file, guc_record_write_bound(kept));
    put_answer(", write ", w.code);
    put_bytes(file, w.written);
    put("\n");
    put_answer("bytes ", (uint32_t)w.written);
    put_read(file, w.written);
    put_read(file, w.written - 1);
    file[18] = 2; // where the second message's direction lies
    put_read(file, w.written);
    put("\n");
}

__attribute__((used)) static void start(void)
{
    whole();
    steps();
    wall();
    record();
    long wrote = syscall3(WRITE, 1, (long)line, (long)filled);
    syscall3(EXIT, wrote == (long)filled ? 0 : 1, 0, 0);
    __builtin_unreachable();
}
// The kernel starts a program with rsp on a multiple of 16; a call puts it where a C function expects it.
__asm__(".globl _start\n_start:\n\txor %ebp, %ebp\n\tcall start\n");
