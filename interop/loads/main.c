/*
 * What the driver says, and its start. It is run twice: once to say what it
 * does, on standard output for check.py, and once with an argument, in silence,
 * to be traced. Its memory is static and it is linked at a fixed address, so
 * both runs have the same addresses.
 */
#include "loads.h"

#include <stdio.h>
#include <stdlib.h>

static volatile uint32_t mark;
static const char *function_now;
static uint32_t wanted;
static int silent;

void calling(const char *function, uint32_t answer, const char *note)
{
	function_now = function;
	wanted = answer;
	if (!silent)
		printf("call %s %u %s\n", function, answer, note);
}

void lent(const char *word, const void *at, size_t bytes)
{
	if (bytes && !silent)
		printf("lent %s %p %zu\n", word, at, bytes);
}

void begin(void)
{
	mark = 1;
}

void end(uint32_t answer)
{
	mark = 2;
	if (answer == wanted)
		return;
	fprintf(stderr, "%s answered %u, not %u\n", function_now, answer, wanted);
	exit(1);
}

int main(int argc, char **argv)
{
	int how;

	(void)argv;
	silent = argc > 1;
	if (!silent)
		printf("mark %p\n", (void *)&mark);
	for (how = WHOLE; how <= TWO; how++) {
		send_calls((enum how)how);
		receive_calls((enum how)how);
	}
	copy_calls();
	half_calls();
	step_calls();
	wall_calls();
	record_calls();
	blob_calls();
	return 0;
}
