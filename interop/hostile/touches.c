/*
 * Lent pages, and a rewrite between two touches of them: while a call runs the
 * block can't be touched, each touch faults, is let through for one instruction
 * (trap flag), and then the words may get other faces. One instruction that
 * touches the block twice is one touch.
 */
#define _GNU_SOURCE
#include "engine.h"

#include <signal.h>
#include <stdio.h>
#include <stdlib.h>
#include <string.h>
#include <sys/mman.h>
#include <ucontext.h>
#include <unistd.h>

#define PAGE 4096u
#define BLOCKS 16
#define TRAP_FLAG 0x100

static struct block {
	uint8_t *start;
	size_t bytes; /* whole pages; a page beyond that can't be touched follows */
} blocks[BLOCKS], *watched;

static unsigned lent_blocks, rare_now;
static uint64_t *random_now;
static unsigned long changes;

void *lent(size_t bytes)
{
	size_t whole = (bytes + PAGE - 1) / PAGE * PAGE;
	uint8_t *start = mmap(NULL, whole + PAGE, PROT_READ | PROT_WRITE,
			      MAP_PRIVATE | MAP_ANONYMOUS, -1, 0);
	struct block b = { start, whole };

	if (start == MAP_FAILED || lent_blocks == BLOCKS)
		exit(2);
	if (mprotect(start + whole, PAGE, PROT_NONE))
		exit(2);
	blocks[lent_blocks++] = b;
	return start + whole - bytes;
}

static void allow(int protection)
{
	if (mprotect(watched->start, watched->bytes, protection))
		_exit(2);
}

static int inside(const volatile void *p, const struct block *b)
{
	uintptr_t at = (uintptr_t)p, start = (uintptr_t)b->start;

	return at >= start && at - start < b->bytes;
}

static void faulted(int signal, siginfo_t *info, void *context)
{
	ucontext_t *c = context;

	(void)signal;
	if (!watched || !inside(info->si_addr, watched)) {
		printf("%s: touched %p, which was not lent\n",
		       current ? current->name : "no scene", info->si_addr);
		fflush(stdout);
		_exit(1);
	}
	allow(PROT_READ | PROT_WRITE);
	c->uc_mcontext.gregs[REG_EFL] |= TRAP_FLAG;
}

/* The touch is done. */
static void stepped(int signal, siginfo_t *info, void *context)
{
	ucontext_t *c = context;
	uint64_t r = next_random(random_now);

	(void)signal;
	(void)info;
	c->uc_mcontext.gregs[REG_EFL] &= ~(greg_t)TRAP_FLAG;
	if ((r >> 8 & ((1u << rare_now) - 1)) == 0) {
		put_faces((unsigned)r & 255);
		changes++;
	}
	allow(PROT_NONE);
}

void touches_catch(void)
{
	struct sigaction a;

	memset(&a, 0, sizeof(a));
	a.sa_flags = SA_SIGINFO;
	a.sa_sigaction = faulted;
	sigaction(SIGSEGV, &a, NULL);
	sigaction(SIGBUS, &a, NULL);
	a.sa_sigaction = stepped;
	sigaction(SIGTRAP, &a, NULL);
}

void touches_begin(uint64_t *seed, unsigned rare)
{
	const volatile void *at = rewritten_block();
	unsigned i;

	for (i = 0; i < lent_blocks; i++)
		if (inside(at, &blocks[i]))
			watched = &blocks[i];
	random_now = seed;
	rare_now = rare;
	changes = 0;
	allow(PROT_NONE);
}

unsigned long touches_end(void)
{
	allow(PROT_READ | PROT_WRITE);
	watched = NULL;
	return changes;
}
