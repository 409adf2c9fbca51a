/*
 * A kernel that does nothing but send and receive by the library, and keep a record
 * of some of it, while interrupts come on its stack, and holds all that it was lent
 * against a book of its own.
 */
#include "book.h"
#include "machine.h"
#include "scenes.h"

void kmain(void);

/* Fewer interrupts inside the archive's own code than this show nothing. */
enum { ENOUGH = 1000 };

static void say_result(void)
{
	say("boot: ");
	say_number(total_messages);
	say(" messages, ");
	say_number(total_dwords);
	say(" dwords, ");
	say_number(wrong);
	say(" wrong; ");
	say_number(runs_copied);
	say(" runs copied, each before it was published; on the same stack ");
	say_number(ticks);
	say(" timer interrupts and ");
	say_number(steps);
	say(" after single instructions, ");
	say_number(ticks_inside);
	say(" and ");
	say_number(steps_inside);
	say(" of them inside the archive\n");
	say("boot: a record: ");
	say_number(total_recorded);
	say(" messages in ");
	say_number(recorded_bytes);
	say(" bytes\n");
}

/* Interrupts of both kinds leave nothing of a red zone, however the stack lies. */
static void check_interrupts(void)
{
	for (uint64_t shift = 0; shift <= 8; shift += 8) {
		unsigned left;

		EXPECT(red_zone_left(&ticks, shift) == 0);
		single_steps = 1;
		begin_call();
		left = red_zone_left(&steps, shift);
		end_call();
		single_steps = 0;
		EXPECT(left == 0);
	}
}

void kmain(void)
{
	machine_start();
	book_start();
	check_interrupts();
	traffic(&whole_calls, SMALL_RING, 20000);
	traffic(&whole_calls, LARGE_RING, 20000);
	traffic(&whole_sides, SMALL_RING, 20000);
	traffic(&whole_sides, LARGE_RING, 20000);
	traffic(&stepped_calls, SMALL_RING, 10000);
	traffic(&stepped_calls, LARGE_RING, 10000);
	refused_calls();
	firmware_calls();
	wall_calls();
	record_calls();
	EXPECT(ticks_inside >= ENOUGH && steps_inside >= ENOUGH);
	say_result();
	machine_stop(wrong == 0);
}
