/*
 * All that an archive asks of a kernel. String instructions, so that the compiler
 * makes no call of memset out of memset; an interrupt may come in the middle.
 */
#include "book.h"

void *memset(void *to, int byte, size_t len)
{
	void *p = to;

	__asm__ volatile("rep stosb" : "+D"(p), "+c"(len) : "a"(byte) : "memory");
	return to;
}

static int in_ring(const void *at)
{
	return (uintptr_t)at - (uintptr_t)lent.ring < sizeof lent.ring;
}

/* A run of the ring is copied before TAIL or HEAD says so: until then the
 * descriptor says what it said before the call, and so does the book. */
void *memcpy(void *restrict to, const void *restrict from, size_t len)
{
	void *p = to;
	size_t words = len / 8, bytes = len % 8;

	if (in_ring(to) || in_ring(from)) {
		runs_copied++;
		EXPECT(lent.desc.head == book.head && lent.desc.tail == book.tail);
	}
	__asm__ volatile("rep movsq" : "+D"(p), "+S"(from), "+c"(words) : : "memory");
	__asm__ volatile("rep movsb" : "+D"(p), "+S"(from), "+c"(bytes) : : "memory");
	return to;
}
