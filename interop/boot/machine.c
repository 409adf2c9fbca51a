/*
 * The machine: a PC as the emulator has it. COM1 says what there is to say, the
 * old timer and interrupt controller interrupt, and a port of the emulator ends it.
 */
#include "machine.h"

enum {
	COM1 = 0x3F8,
	TIMER = 0x40,
	CONTROLLER_1 = 0x20,
	CONTROLLER_2 = 0xA0,
	EXIT = 0xF4,
	FAULTS = 32, /* the processor's own vectors; the timer has the next */
	FAULT_BYTES = 16, /* of code for each of them */
	PERIOD = 24  /* of the timer, in ticks of 838 ns: 50,000 interrupts a second */
};

volatile uint64_t ticks, ticks_inside, steps, steps_inside;
int single_steps;

void timer_entry(void);
void step_entry(void);
void stray_entry(void);
extern const char fault_entries[];
_Noreturn void fault(uint64_t vector, uint64_t error, uint64_t at);

struct gate {
	uint16_t low, selector, type, middle;
	uint32_t high, zero;
};

static struct gate gates[256];

static void out(uint16_t port, uint8_t value)
{
	__asm__ volatile("outb %0, %1" : : "a"(value), "Nd"(port));
}

static uint8_t in(uint16_t port)
{
	uint8_t value;

	__asm__ volatile("inb %1, %0" : "=a"(value) : "Nd"(port));
	return value;
}

void say(const char *text)
{
	for (; *text; text++) {
		while (!(in(COM1 + 5) & 0x20))
			;
		out(COM1, (uint8_t)*text);
	}
}

static void say_in_base(uint64_t number, unsigned base)
{
	char digits[24], *p = digits + sizeof digits;

	*--p = 0;
	do
		*--p = "0123456789abcdef"[number % base];
	while (number /= base);
	say(p);
}

void say_number(uint64_t number)
{
	say_in_base(number, 10);
}

/* The emulator's status is 33 where all was good, and 35 where it was not. */
_Noreturn void machine_stop(int good)
{
	out(EXIT, good ? 16 : 17);
	for (;;)
		__asm__ volatile("cli\n\thlt");
}

_Noreturn void fault(uint64_t vector, uint64_t error, uint64_t at)
{
	say("boot: fault ");
	say_number(vector);
	say(", error ");
	say_number(error);
	say(", at ");
	say_in_base(at, 16);
	say("\n");
	machine_stop(0);
}

static void gate(unsigned vector, uint64_t entry)
{
	gates[vector] = (struct gate){
		.low = (uint16_t)entry, .selector = 8, .type = 0x8E00,
		.middle = (uint16_t)(entry >> 16), .high = (uint32_t)(entry >> 32)};
}

static void interrupt_table(void)
{
	struct { uint16_t limit, base[4]; } at = {sizeof gates - 1, {0}};
	uint64_t base = (uint64_t)gates;
	unsigned v;

	for (v = 0; v < FAULTS; v++)
		gate(v, (uint64_t)(fault_entries + v * FAULT_BYTES));
	for (; v < 256; v++)
		gate(v, (uint64_t)stray_entry);
	gate(1, (uint64_t)step_entry);
	gate(FAULTS, (uint64_t)timer_entry);
	for (v = 0; v < 4; v++)
		at.base[v] = (uint16_t)(base >> 16 * v);
	__asm__ volatile("lidt %0" : : "m"(at));
}

/* Both controllers, their vectors from FAULTS on, and only the timer let through. */
static void interrupt_controllers(void)
{
	out(CONTROLLER_1, 0x11);
	out(CONTROLLER_2, 0x11);
	out(CONTROLLER_1 + 1, FAULTS);
	out(CONTROLLER_2 + 1, FAULTS + 8);
	out(CONTROLLER_1 + 1, 4);
	out(CONTROLLER_2 + 1, 2);
	out(CONTROLLER_1 + 1, 1);
	out(CONTROLLER_2 + 1, 1);
	out(CONTROLLER_1 + 1, 0xFE);
	out(CONTROLLER_2 + 1, 0xFF);
}

void machine_start(void)
{
	out(COM1 + 1, 0);    /* no interrupts of its own */
	out(COM1 + 3, 0x80); /* 115200 baud, 8 bits, no parity */
	out(COM1, 1);
	out(COM1 + 1, 0);
	out(COM1 + 3, 3);
	interrupt_table();
	interrupt_controllers();
	out(TIMER + 3, 0x34);
	out(TIMER, PERIOD);
	out(TIMER, 0);
	__asm__ volatile("sti");
}
