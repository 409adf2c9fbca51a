/* memcpy and memset, which the archive asks its caller for: these load each byte once, where libc's
 * may load some of it twice, so that what is counted is what the archive asks for. */
#include <stddef.h>
#include <stdint.h>

typedef long long block __attribute__((vector_size(16), aligned(1), may_alias));
typedef uint32_t dword __attribute__((aligned(1), may_alias));

/* Keeps a compiler from making a call of these very functions of their loops. */
#define OPAQUE(p) __asm__("" : "+r"(p))

void *memcpy(void *restrict dst, const void *restrict src, size_t n)
{
	char *to = dst;
	const char *from = src;

	for (; n >= 4 * sizeof(block); n -= 4 * sizeof(block)) {
		OPAQUE(from);
		block a = ((const block *)from)[0], b = ((const block *)from)[1];
		block c = ((const block *)from)[2], d = ((const block *)from)[3];
		((block *)to)[0] = a;
		((block *)to)[1] = b;
		((block *)to)[2] = c;
		((block *)to)[3] = d;
		from += 4 * sizeof(block);
		to += 4 * sizeof(block);
	}
	for (; n >= sizeof(block); n -= sizeof(block), from += sizeof(block), to += sizeof(block)) {
		OPAQUE(from);
		*(block *)to = *(const block *)from;
	}
	for (; n >= sizeof(dword); n -= sizeof(dword), from += sizeof(dword), to += sizeof(dword)) {
		OPAQUE(from);
		*(dword *)to = *(const dword *)from;
	}
	for (; n > 0; n--) {
		OPAQUE(from);
		*to++ = *from++;
	}
	return dst;
}

void *memset(void *dst, int c, size_t n)
{
	char *to = dst;

	for (; n > 0; n--) {
		OPAQUE(to);
		*to++ = (char)c;
	}
	return dst;
}
