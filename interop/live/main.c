/*
 * Runs the tests of guc_live.h. Usage: live [seed [messages [part]]], where part
 * is one of those below. Exit status 0 only if nothing was bad.
 */
#include "live.h"

#include <stdio.h>
#include <stdlib.h>
#include <string.h>

int main(int argc, char **argv)
{
	uint64_t seed = argc > 1 ? strtoull(argv[1], NULL, 10) : 1;
	unsigned long messages = argc > 2 ? strtoul(argv[2], NULL, 10) : 1000000;
	/* the least number lets every answer come that the header names */
	const struct {
		const char *name;
		void (*run)(uint64_t seed, unsigned long calls);
		unsigned long calls;
	} parts[] = {
		{ "same", same, messages / 10 + 50000 },
		{ "order", order, messages / 100 + 50000 },
		{ "pairs", pairs, messages < 20000 ? 20000 : messages },
		{ "siege", siege, messages / 50 + 1000 },
	};
	size_t i;

	prepare();
	for (i = 0; i < sizeof(parts) / sizeof(parts[0]); i++)
		if (argc < 4 || !strcmp(argv[3], parts[i].name))
			parts[i].run(seed + (seed == 0), parts[i].calls);
	printf(bads() ? "live: FAILED, %lu bad\n" : "live: ok, %lu bad\n", bads());
	return bads() ? 1 : 0;
}
