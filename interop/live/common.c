/*
 * What the tests of guc_live.h share: memory with ends that can't be touched,
 * messages that can be told apart, complaints, processors.
 */
#define _GNU_SOURCE
#include "live.h"

#include <pthread.h>
#include <sched.h>
#include <signal.h>
#include <stdarg.h>
#include <stdatomic.h>
#include <stdio.h>
#include <stdlib.h>
#include <string.h>
#include <sys/mman.h>
#include <time.h>
#include <unistd.h>

#define SHOWN 10

const char *running = "nothing";
static atomic_ulong complaints;

void bad(const char *format, ...)
{
	unsigned long before = atomic_fetch_add(&complaints, 1);
	char line[200];
	va_list list;

	if (before >= SHOWN)
		return;
	va_start(list, format);
	vsnprintf(line, sizeof(line), format, list);
	va_end(list);
	printf("    bad, %s: %s\n", running, line);
	fflush(stdout);
}

unsigned long bads(void)
{
	return atomic_load(&complaints);
}

/* No way back: the instruction that touched would touch again. */
static void touched(int signal, siginfo_t *info, void *context)
{
	char line[200];
	int len;

	(void)signal;
	(void)context;
	len = snprintf(line, sizeof(line), "    bad, %s: touched %p, which it must not\nlive: FAILED\n",
		       running, info->si_addr);
	if (write(STDOUT_FILENO, line, (size_t)len) < 0)
		_exit(2);
	_exit(1);
}

static cpu_set_t allowed;

void prepare(void)
{
	struct sigaction a;

	sched_getaffinity(0, sizeof(allowed), &allowed);
	memset(&a, 0, sizeof(a));
	a.sa_flags = SA_SIGINFO;
	a.sa_sigaction = touched;
	sigaction(SIGSEGV, &a, NULL);
	sigaction(SIGBUS, &a, NULL);
}

uint64_t next_random(uint64_t *x)
{
	*x ^= *x << 13;
	*x ^= *x >> 7;
	*x ^= *x << 17;
	return *x * 0x2545F4914F6CDD1Dull >> 16;
}

double seconds(void)
{
	struct timespec t;

	clock_gettime(CLOCK_MONOTONIC, &t);
	return (double)t.tv_sec + (double)t.tv_nsec / 1e9;
}

void allow(void *start, size_t bytes, int touchable)
{
	if (mprotect(start, bytes, touchable ? PROT_READ | PROT_WRITE : PROT_NONE))
		abort();
}

void *lent(size_t bytes)
{
	size_t whole = (bytes + PAGE - 1) / PAGE * PAGE;
	uint8_t *start = mmap(NULL, whole + 2 * PAGE, PROT_NONE, MAP_PRIVATE | MAP_ANONYMOUS, -1, 0);

	if (start == MAP_FAILED)
		abort();
	allow(start + PAGE, whole, 1);
	return start + PAGE + whole - bytes;
}

/* Two pages: the three words end the first, the reserved ones begin the second. */
struct guc_descriptor *lent_descriptor(void)
{
	uint8_t *pages = lent(2 * PAGE);

	return (struct guc_descriptor *)(void *)(pages + PAGE - offsetof(struct guc_descriptor, reserved));
}

void allow_reserved(struct guc_descriptor *desc, int touchable)
{
	allow((uint8_t *)desc + offsetof(struct guc_descriptor, reserved), PAGE, touchable);
}

void allow_words(struct guc_descriptor *desc, int touchable)
{
	allow((uint8_t *)desc + offsetof(struct guc_descriptor, reserved) - PAGE, PAGE, touchable);
}

int well_formed(uint32_t header, uint32_t word)
{
	return (header & 0xFF00u) == 0 && (header & 0xFFu) != 0 && (word >> 28 & 7) != 4;
}

size_t make_message(uint64_t seed, uint64_t i, uint32_t *msg)
{
	uint64_t x = (seed << 40 ^ (i + 1)) * 0x9E3779B97F4A7C15ull;
	uint32_t step = (uint32_t)(x >> 8) | 1, dword, k, len;

	x ^= x >> 29;
	len = 2 + (uint32_t)((x * 0xBF58476D1CE4E5B9ull >> 33) % 255);
	dword = (uint32_t)(x >> 31);
	msg[0] = (uint32_t)i << 16 | (len - 1);
	msg[1] = (dword >> 28 & 7) == 4 ? dword ^ 1u << 28 : dword;
	for (k = 2; k < len; k++) /* every second one would do as a header */
		msg[k] = (dword + k * step) & (k & 1 ? 0xFFFFFFFFu : 0xFFFF00FFu);
	return len;
}

unsigned processors(void)
{
	return (unsigned)CPU_COUNT(&allowed);
}

void on_processor(unsigned which)
{
	unsigned cpu, seen = 0;
	cpu_set_t one;

	which %= processors();
	for (cpu = 0; cpu < CPU_SETSIZE; cpu++)
		if (CPU_ISSET(cpu, &allowed) && seen++ == which) {
			CPU_ZERO(&one);
			CPU_SET(cpu, &one);
			pthread_setaffinity_np(pthread_self(), sizeof(one), &one);
		}
}

void wait_a_little(unsigned tried)
{
	if (tried > 50 || processors() == 1)
		sched_yield();
	else
		__builtin_ia32_pause();
}
