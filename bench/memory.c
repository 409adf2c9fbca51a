// memcpy and memset without vector registers, as a kernel may have them, for libguc-kernel.a and for the plain C beside it:
// by 8-byte moves, four in a turn and the rest by moves that overlap, and by the processor's repeated move.
// The barriers keep a compiler from making calls or vectors of the loops.
#include "memory.h"

#define BARRIER __asm__ volatile("" ::: "memory")
typedef uint64_t __attribute__((may_alias, aligned(1))) eight;
typedef uint32_t __attribute__((may_alias, aligned(1))) four;

// Below 32 bytes: all that is moved is read before it is stored.
static inline void move_rest(unsigned char *t, const unsigned char *f, size_t n)
{
    if (n >= 16) {
        uint64_t a = *(const eight *)f, b = *(const eight *)(f + 8), c = *(const eight *)(f + n - 16), d = *(const eight *)(f + n - 8);
        *(eight *)t = a;
        *(eight *)(t + 8) = b;
        *(eight *)(t + n - 16) = c;
        *(eight *)(t + n - 8) = d;
    } else if (n >= 8) {
        uint64_t a = *(const eight *)f, b = *(const eight *)(f + n - 8);
        *(eight *)t = a;
        *(eight *)(t + n - 8) = b;
    } else if (n >= 4) {
        uint32_t a = *(const four *)f, b = *(const four *)(f + n - 4);
        *(four *)t = a;
        *(four *)(t + n - 4) = b;
    } else {
        for (; n; n--) { *t++ = *f++; BARRIER; }
    }
}
void *moves_memcpy(void *to, const void *from, size_t n)
{
    unsigned char *t = to;
    const unsigned char *f = from;
    for (; n >= 32; n -= 32, t += 32, f += 32) {
        eight *d = (eight *)t;
        const eight *s = (const eight *)f;
        uint64_t a = s[0], b = s[1], c = s[2], e = s[3];
        d[0] = a;
        d[1] = b;
        d[2] = c;
        d[3] = e;
        BARRIER;
    }
    move_rest(t, f, n);
    return to;
}
void *moves_memset(void *to, int value, size_t n)
{
    unsigned char *t = to;
    uint64_t v = 0x0101010101010101u * (unsigned char)value;
    for (; n >= 32; n -= 32, t += 32) {
        eight *d = (eight *)t;
        d[0] = d[1] = d[2] = d[3] = v;
        BARRIER;
    }
    for (; n >= 8; n -= 8, t += 8) { *(eight *)t = v; BARRIER; }
    for (; n; n--) { *t++ = (unsigned char)value; BARRIER; }
    return to;
}

void *rep_memcpy(void *to, const void *from, size_t n)
{
    void *t = to;
    __asm__ volatile("rep movsb" : "+D"(t), "+S"(from), "+c"(n) : : "memory");
    return to;
}
void *rep_memset(void *to, int value, size_t n)
{
    void *t = to;
    __asm__ volatile("rep stosb" : "+D"(t), "+c"(n) : "a"(value) : "memory");
    return to;
}
