/* Many random calls. It prints each kind of answer that a call gave, a line for each, and c/test
 * compares them with the kinds that the header names for the call. */
#include "check.h"

#define MOST_STEPS 400
#define TICKETS 4

#define CALLS(it) \
	it(enqcmd) it(movdir64b) it(dispatch) it(dispatch_from) it(fetch) it(start) it(finish) \
	it(command) it(poll) it(write_queue) it(write_group) it(clear_error) it(step) it(noted) \
	it(history_answer)
#define NUMBER(name) CALL_##name,
#define NAME(name) "dsa_" #name,
#define TURN(name) case CALL_##name: return try_##name(device);

enum call { CALLS(NUMBER) CALL_COUNT };
static const char *const names[] = { CALLS(NAME) };
static bool seen[CALL_COUNT][25];

static uint64_t state = 20261128;

/* A number below the count, of a generator by Marsaglia (xorshift64). */
static uint32_t below(uint32_t count)
{
	state ^= state << 13;
	state ^= state >> 7;
	state ^= state << 17;
	return (uint32_t)(state >> 32) % count;
}

/* Seldom a number that the device does not have. */
static uint16_t mostly_below(uint32_t count)
{
	return (uint16_t)below(below(16) == 0 ? count + 2 : count);
}

static struct dsa_descriptor descriptor(void)
{
	static const uint8_t operations[] = { DSA_OP_NOOP, DSA_OP_BATCH, DSA_OP_BATCH, DSA_OP_BATCH,
		DSA_OP_DRAIN, DSA_OP_MEMMOVE, DSA_OP_MEMMOVE, 0x99 };
	uint8_t operation = operations[below(8)];
	uint32_t size = operation == DSA_OP_BATCH ? 1 + below(3) : 64u << 4 * below(3);
	return descriptor_of(operation, (uint8_t)(below(8) == 0), size);
}

static struct dsa_descriptor member(void)
{
	return descriptor_of(DSA_OP_MEMMOVE, (uint8_t)(below(3) == 0), 16384);
}

/* The last tickets that ran. */
static struct dsa_answer tickets[TICKETS];

static struct dsa_answer keep(struct dsa_answer answer)
{
	if (answer.kind == DSA_TAKEN || answer.kind == DSA_STARTED)
		tickets[below(TICKETS)] = answer;
	return answer;
}

static struct dsa_answer try_enqcmd(struct dsa_model *device)
{
	struct dsa_descriptor from = descriptor();
	return dsa_enqcmd(device, 0, mostly_below(2), mostly_below(2), 5, &from);
}

static struct dsa_answer try_movdir64b(struct dsa_model *device)
{
	struct dsa_descriptor from = descriptor();
	return dsa_movdir64b(device, 0, mostly_below(2), mostly_below(2), &from);
}

static struct dsa_answer try_dispatch(struct dsa_model *device)
{
	return keep(dsa_dispatch(device, mostly_below(1)));
}

static struct dsa_answer try_dispatch_from(struct dsa_model *device)
{
	return keep(dsa_dispatch_from(device, mostly_below(1), mostly_below(2)));
}

static struct dsa_answer try_fetch(struct dsa_model *device)
{
	struct dsa_descriptor from = member();
	return dsa_fetch(device, mostly_below(1), &from);
}

static struct dsa_answer try_start(struct dsa_model *device)
{
	return keep(dsa_start(device, mostly_below(1)));
}

static struct dsa_answer try_finish(struct dsa_model *device)
{
	struct dsa_answer ticket = tickets[below(TICKETS)];
	return dsa_finish(device, mostly_below(1), ticket.cell, ticket.name, mostly_below(2));
}

static struct dsa_answer try_command(struct dsa_model *device)
{
	static const uint32_t often[] = { DSA_COMMAND(DSA_ENABLE_DEVICE, 0), DSA_COMMAND(DSA_ENABLE_WQ, 0),
		DSA_COMMAND(DSA_ENABLE_WQ, 1), DSA_COMMAND(DSA_DRAIN_ALL, 0) };
	if (below(40) != 0)
		return dsa_command(device, often[below(4)]);
	return dsa_command(device, DSA_COMMAND(below(16), below(4)));
}

static struct dsa_answer try_poll(struct dsa_model *device)
{
	return dsa_poll(device);
}

static struct dsa_answer try_write_queue(struct dsa_model *device)
{
	struct dsa_queue config = below(2) == 0 ? shared_queue : own_queue;
	if (below(16) == 0)
		config.dedicated = 2;
	return dsa_write_queue(device, mostly_below(2), &config);
}

static struct dsa_answer try_write_group(struct dsa_model *device)
{
	return dsa_write_group(device, mostly_below(1), &one_group);
}

static struct dsa_answer try_clear_error(struct dsa_model *device)
{
	return dsa_clear_error(device);
}

/* An event of any kind, and seldom of none. */
static struct dsa_answer try_step(struct dsa_model *device)
{
	static const uint8_t commands[] = { DSA_ENABLE_DEVICE, DSA_ENABLE_WQ, DSA_ENABLE_WQ, DSA_DRAIN_ALL };
	struct dsa_answer ticket = tickets[below(TICKETS)];
	struct dsa_event event = { .kind = 1 + below(12), .name = ticket.name, .cell = ticket.cell, .pasid = 5,
		.size = 64u << 4 * below(3), .queue = mostly_below(2), .engine = mostly_below(1),
		.portal = (uint8_t)mostly_below(2), .outcome = (uint8_t)mostly_below(2), .operand = below(2) };
	event.operation = below(4) == 0 ? DSA_OP_BATCH : DSA_OP_MEMMOVE;
	event.flags = below(3) == 0 && event.kind == DSA_EVENT_FETCH;
	if (event.operation == DSA_OP_BATCH)
		event.size = 1 + below(3);
	event.command = below(16) == 0 ? (uint8_t)below(16) : commands[below(4)];
	return keep(dsa_step(device, &event));
}

static struct dsa_answer try_noted(struct dsa_model *device)
{
	return dsa_noted(device);
}

static struct dsa_answer try_history_answer(struct dsa_model *device)
{
	return dsa_history_answer(device, below(MOST_STEPS + 2));
}

static struct dsa_answer turn(struct dsa_model *device, enum call call)
{
	switch (call) {
	CALLS(TURN)
	default: abort();
	}
}

/* Calls on a device of that capacity, or on none, until its history has been full for a while. */
static void play(struct dsa_model *device, unsigned calls)
{
	while (calls-- > 0) {
		enum call call = (enum call)below(CALL_COUNT);
		struct dsa_answer answer = turn(device, call);
		CHECK(answer.kind <= DSA_BAD_ARGUMENT);
		seen[call][answer.kind] = true;
	}
}

/* A kind as the header calls it: its name in capitals. */
static void print(enum call call, uint32_t kind)
{
	printf("%s DSA_", names[call]);
	for (const char *at = dsa_kind_name(kind); *at != '\0'; at++)
		putchar(*at == ' ' ? '_' : *at - 'a' + 'A');
	putchar('\n');
}

int main(void)
{
	for (int round = 0; round < 400; round++) {
		struct dsa_model device = round % 8 == 0 ? dsa_closed() : enabled(20 + below(MOST_STEPS));
		play(&device, 500);
		dsa_close(&device);
	}
	for (int call = 0; call < CALL_COUNT; call++)
		for (uint32_t kind = 0; kind < 25; kind++)
			if (seen[call][kind])
				print((enum call)call, kind);
	return 0;
}
