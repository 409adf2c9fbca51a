/*
 * The machine: its serial port, its timer, its interrupts, and the end.
 */
#ifndef MACHINE_H
#define MACHINE_H

#include <stddef.h>
#include <stdint.h>

/* Interrupts by the timer and after single instructions, and how many of them
 * came while an instruction of the archive was next. */
extern volatile uint64_t ticks, ticks_inside, steps, steps_inside;

/* The interrupt table, the serial port, and the timer at its rate. */
void machine_start(void);

/* The machine ends, and the emulator with it. */
_Noreturn void machine_stop(int good);

void say(const char *text);
void say_number(uint64_t number);

/*
 * Around each call of the library, so that the timer is not alone: where
 * single_steps is set the processor interrupts after every instruction between
 * the two, on the same stack.
 */
extern int single_steps;

static inline void begin_call(void)
{
	if (single_steps)
		__asm__ volatile("pushfq\n\torq $0x100, (%%rsp)\n\tpopfq" : : : "memory", "cc");
}

static inline void end_call(void)
{
	if (single_steps)
		__asm__ volatile("pushfq\n\tandq $~0x100, (%%rsp)\n\tpopfq" : : : "memory", "cc");
}

/* How many of 16 quadwords below the stack pointer, lowered by shift, outlive an
 * interrupt that is counted there. */
unsigned red_zone_left(const volatile uint64_t *counter, uint64_t shift);

#endif /* MACHINE_H */
