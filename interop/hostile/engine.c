/*
 * Runs each scene twice: with a second thread that rewrites the words all the
 * time, and with a rewrite between two touches of the lent memory, where each
 * touch is a page fault. The first is the real thing, and chance decides what
 * it hits; of the second a seed's calls are the same on any machine, the time
 * only says how many there are. Usage:
 *   hostile [seed [calls of the two attacks of the audit [percent of the time]]]
 */
#define _GNU_SOURCE
#include "engine.h"

#include <pthread.h>
#include <sched.h>
#include <stdarg.h>
#include <stdatomic.h>
#include <stdio.h>
#include <stdlib.h>
#include <time.h>

#define CALLS 2000000ul   /* a scene by thread, unless the time is up before */
#define SECONDS 0.5       /* a scene by thread */
#define TOUCH_SECONDS 0.2 /* a scene by touch */
#define LONG_SECONDS 900.0
#define LATE 2.0
#define RACED 100         /* calls that the thread should have hit, at least */
#define BY_TOUCH 1        /* calls that a rewrite by touch must have hit */
#define TOUCHED 60        /* calls of a variant by touch, whatever the time */

struct tally {
	unsigned long calls, raced, taken, bad, showed[2];
	double began;
	char first[176]; /* what was wrong the first time, in which variant */
};

uint32_t answer;
int showed;
const struct scene *current;
static struct word words[8];
static unsigned named;
static char complaint[160];
static unsigned long all_calls, all_bad, attack_calls;
static double share = 1; /* of the time that a scene has */
static int idle_scenes;
static atomic_int stop;
static _Alignas(64) atomic_ulong rounds;
static cpu_set_t allowed; /* processors that this program may use */

uint64_t next_random(uint64_t *x)
{
	*x ^= *x << 13;
	*x ^= *x >> 7;
	*x ^= *x << 17;
	return *x * 0x2545F4914F6CDD1Dull >> 16;
}

void rewritten_units(volatile void *at, unsigned bytes, unsigned unit, uint64_t a, uint64_t b)
{
	struct word w = { at, bytes, unit, { a, b } };

	words[named++] = w;
}

void rewritten(volatile void *at, unsigned bytes, uint64_t a, uint64_t b)
{
	rewritten_units(at, bytes, bytes, a, b);
}

const volatile void *rewritten_block(void)
{
	return words[0].at;
}

static void put(const struct word *w, uint64_t value)
{
	if (w->bytes == 1)
		*(volatile uint8_t *)w->at = (uint8_t)value;
	else if (w->bytes == 4)
		*(volatile uint32_t *)w->at = (uint32_t)value;
	else
		*(volatile uint64_t *)w->at = value;
}

void put_faces(unsigned faces)
{
	unsigned i;

	for (i = 0; i < named; i++)
		put(&words[i], words[i].face[faces >> i & 1]);
}

unsigned choices(void)
{
	unsigned i, units = 0;

	for (i = 0; i < named; i++)
		units += words[i].bytes / words[i].unit;
	return 1u << units;
}

void put_choice(unsigned choice)
{
	unsigned i, at;

	for (i = 0; i < named; i++) {
		uint64_t value = 0, mask = ~0ull >> (64 - 8 * words[i].unit);

		for (at = 0; at < words[i].bytes; at += words[i].unit, choice >>= 1)
			value |= words[i].face[choice & 1] & mask << 8 * at;
		put(&words[i], value);
	}
}

const char *complain(const char *format, ...)
{
	va_list list;

	va_start(list, format);
	vsnprintf(complaint, sizeof(complaint), format, list);
	va_end(list);
	return complaint;
}

static double now(void)
{
	struct timespec t;

	clock_gettime(CLOCK_MONOTONIC, &t);
	return (double)t.tv_sec + (double)t.tv_nsec / 1e9;
}

static void count(const struct scene *s, struct tally *t, int raced, unsigned variant)
{
	const char *wrong = s->judge();

	t->calls++;
	t->raced += raced;
	t->taken += answer == GUC_OK;
	t->showed[showed]++;
	if (wrong && t->bad++ == 0)
		snprintf(t->first, sizeof(t->first), "(v%u) %s", variant, wrong);
}

/* Rounds of rewriting, with pauses so that all phases of a call are met. */
static void *writer(void *seed)
{
	uint64_t x = *(uint64_t *)seed;
	volatile unsigned pause;

	while (!atomic_load_explicit(&stop, memory_order_relaxed)) {
		uint64_t r = next_random(&x);

		put_faces((unsigned)r & 255);
		atomic_fetch_add_explicit(&rounds, 1, memory_order_relaxed);
		for (pause = ((unsigned)(r >> 8) & 63) >> (r >> 16 & 7); pause; pause--)
			;
	}
	return NULL;
}

/* Where there are two processors: the calls on the first, the writer on the next. */
static void place(pthread_t thread, int which)
{
	cpu_set_t one;
	int cpu, seen = 0;

	for (cpu = 0; cpu < CPU_SETSIZE; cpu++)
		if (CPU_ISSET(cpu, &allowed) && seen++ == which) {
			CPU_ZERO(&one);
			CPU_SET(cpu, &one);
			pthread_setaffinity_np(thread, sizeof(one), &one);
		}
}

/* Calls of one variant beside the writer: quota of them, or until the time is
 * up; and some more, for at most LATE seconds, where no rewrite has hit one. */
static void beside(const struct scene *s, struct tally *t, unsigned v, unsigned long quota,
		   double seconds)
{
	double until = now() + seconds;
	unsigned long k, before, hits = t->raced + RACED / s->variants + 1;

	for (k = 0;; k++) {
		if (k % 64 == 0) {
			double at = now();

			if ((k >= quota || at >= until) &&
			    (t->raced >= hits || at >= until + share * LATE))
				return;
		}
		s->reset();
		before = atomic_load_explicit(&rounds, memory_order_relaxed);
		s->call();
		count(s, t, before != atomic_load_explicit(&rounds, memory_order_relaxed), v);
	}
}

static void by_thread(const struct scene *s, struct tally *t, uint64_t seed)
{
	int attack = s->named && attack_calls;
	unsigned long quota = (attack ? attack_calls : CALLS) / s->variants + 1;
	pthread_t thread;
	unsigned v;

	for (v = 0; v < s->variants; v++) {
		named = 0;
		s->lay(v);
		atomic_store(&stop, 0);
		atomic_store(&rounds, 0);
		if (pthread_create(&thread, NULL, writer, &seed))
			exit(2);
		place(thread, 1);
		while (!atomic_load(&rounds))
			sched_yield();
		beside(s, t, v, quota, (attack ? LONG_SECONDS : share * SECONDS) / s->variants);
		atomic_store(&stop, 1);
		pthread_join(thread, NULL);
	}
}

static void by_touch(const struct scene *s, struct tally *t, uint64_t seed)
{
	double slice = share * TOUCH_SECONDS / s->variants, until;
	unsigned k, v;

	for (v = 0; v < s->variants; v++) {
		uint64_t x = seed * 64 + v; /* not 0: seed isn't */

		named = 0;
		s->lay(v);
		until = now() + slice;
		for (k = 0; k < 2000 && (k < TOUCHED || now() < until); k++) {
			s->reset();
			put_faces((unsigned)next_random(&x) & 255);
			touches_begin(&x, k % 6);
			s->call();
			count(s, t, touches_end() != 0, v);
		}
	}
}

/* A scene whose race never showed proves nothing, and that is said. By touch it
 * is a mistake of the scene; by thread, of a machine that is busy or has one
 * processor, which is no reason to fail. */
static void tell(const struct scene *s, const char *by, const struct tally *t, uint64_t seed,
		 unsigned long least)
{
	printf("%-32s %-6s %8lu %8lu %8lu %7lu %5.1f %4lu\n", s->name, by, t->calls, t->raced,
	       t->taken, t->bad, now() - t->began, (unsigned long)seed);
	if (t->bad)
		printf("    bad %s\n", t->first);
	if (t->raced < least || !t->showed[0] || !t->showed[1]) {
		printf("    nothing shown: raced %lu, outcomes %lu and %lu\n", t->raced,
		       t->showed[0], t->showed[1]);
		idle_scenes += least == BY_TOUCH;
	}
	fflush(stdout);
	all_calls += t->calls;
	all_bad += t->bad;
}

static void run(const struct scene *s, uint64_t *seed)
{
	for (; s->name; s++, (*seed)++) {
		struct tally thread = { .began = now() }, touch = { .calls = 0 };

		current = s;
		by_thread(s, &thread, *seed);
		tell(s, "thread", &thread, *seed, RACED);
		touch.began = now();
		by_touch(s, &touch, *seed);
		tell(s, "touch", &touch, *seed, BY_TOUCH);
	}
}

int main(int argc, char **argv)
{
	static const struct scene *const lists[] = { send_scenes, receive_scenes, blob_scenes, reply_scenes,
						     wall_send_scenes, record_read_scenes, record_write_scenes };
	uint64_t seed = argc > 1 ? strtoull(argv[1], NULL, 10) : 1;
	unsigned long afresh, k;

	attack_calls = argc > 2 ? strtoul(argv[2], NULL, 10) : 0;
	share = argc > 3 ? strtod(argv[3], NULL) / 100 : 1;
	touches_catch();
	sched_getaffinity(0, sizeof(allowed), &allowed);
	place(pthread_self(), 0);
	printf("hostile writers: lent words change while calls run\n");
	printf("%-32s %-6s %8s %8s %8s %7s %5s %4s\n", "call, what is rewritten", "by", "calls",
	       "raced", "taken", "bad", "s", "seed");
	seed += seed == 0;
	for (k = 0; k < sizeof(lists) / sizeof(lists[0]); k++)
		run(lists[k], &seed);
	afresh = judged_afresh();
	printf("same bytes rewritten between two calls: %lu not judged afresh\n", afresh);
	printf("hostile writers: %lu calls, %lu bad, %d scenes by touch without a race\n", all_calls,
	       all_bad + afresh, idle_scenes);
	return all_bad + afresh || idle_scenes ? 1 : 0;
}
