/* Random runs of a device, and all reads of two devices that are alike. */
#ifndef RUNS_H
#define RUNS_H
#include "check.h"

#define MOST_STEPS 120
#define LATER 30
#define TICKETS 4

static const struct dsa_caps caps = { 3, 2, 2, 24, 16, 2, 3, 20 };
static const struct dsa_group groups[] = { { 3, 1, 4, 5 }, { 4, 2, 4, 4 } };

static uint64_t state = 20261129;

/* A number below the count, of a generator by Marsaglia (xorshift64). */
static inline uint32_t below(uint32_t count)
{
	state ^= state << 13;
	state ^= state >> 7;
	state ^= state << 17;
	return (uint32_t)(state >> 32) % count;
}

static inline bool is_same(struct dsa_answer one, struct dsa_answer other)
{
	return memcmp(&one, &other, sizeof one) == 0;
}

/* Queues 0 and 2 are shared, and queue 1 is dedicated. Queues 0 and 1 are in group 0. */
static inline struct dsa_answer write_queue(struct dsa_model *device, uint16_t queue)
{
	return dsa_write_queue(device, queue, queue == 1 ? &own_queue : &shared_queue);
}

static inline struct dsa_model set_up(void)
{
	struct dsa_model device = DSA_CLOSED;
	CHECK(dsa_open(&device, &caps, MOST_STEPS + LATER + 9) == DSA_OPENED);
	for (uint16_t queue = 0; queue < caps.queues; queue++)
		CHECK(write_queue(&device, queue).kind == DSA_WRITTEN);
	for (uint16_t group = 0; group < caps.groups; group++)
		CHECK(dsa_write_group(&device, group, &groups[group]).kind == DSA_WRITTEN);
	CHECK(dsa_command(&device, DSA_COMMAND(DSA_ENABLE_DEVICE, 0)).kind == DSA_ENDED);
	for (uint16_t queue = 0; queue < caps.queues; queue++)
		CHECK(dsa_command(&device, DSA_COMMAND(DSA_ENABLE_WQ, queue)).kind == DSA_ENDED);
	return device;
}

/* The last tickets that ran, and the engines that they ran on. */
static struct dsa_answer tickets[TICKETS];
static uint16_t engines[TICKETS];

static inline struct dsa_event random_event(void)
{
	static const uint32_t kinds[] = { DSA_EVENT_ENQCMD, DSA_EVENT_ENQCMD, DSA_EVENT_MOVDIR64B, DSA_EVENT_DISPATCH,
		DSA_EVENT_DISPATCH, DSA_EVENT_FETCH, DSA_EVENT_FETCH, DSA_EVENT_START, DSA_EVENT_START, DSA_EVENT_FINISH,
		DSA_EVENT_FINISH, DSA_EVENT_FINISH, DSA_EVENT_COMMAND, DSA_EVENT_POLL, DSA_EVENT_CLEAR_ERROR };
	static const uint8_t operations[] = { DSA_OP_NOOP, DSA_OP_BATCH, DSA_OP_BATCH, DSA_OP_DRAIN, DSA_OP_MEMMOVE, 0x99 };
	static const uint8_t commands[] = { DSA_ENABLE_WQ, DSA_ENABLE_WQ, DSA_DISABLE_WQ, DSA_DRAIN_WQ, DSA_ABORT_WQ,
		DSA_DRAIN_ALL, DSA_DRAIN_PASID, DSA_ABORT_PASID };
	uint32_t last = below(TICKETS);
	struct dsa_event event = { .kind = kinds[below(15)], .name = tickets[last].name, .cell = tickets[last].cell,
		.pasid = 5 + below(2), .descriptor_pasid = below(9), .queue = (uint16_t)below(3),
		.engine = (uint16_t)below(2), .operand = below(4) };
	event.operation = operations[below(6)];
	event.size = event.operation == DSA_OP_BATCH ? 1 + below(4) : 64u << 4 * below(3);
	event.flags = event.kind == DSA_EVENT_FETCH && below(3) == 0;
	event.portal = (uint8_t)below(2);
	event.outcome = below(4) == 0;
	event.command = commands[below(8)];
	if (event.kind == DSA_EVENT_FINISH)
		event.engine = engines[last];
	return event;
}

/* A step: that of an event, a dispatch from a queue that the device would perhaps not have chosen, or a write to a queue. */
struct chosen {
	struct dsa_event event;
	bool writes, from_queue;
};

static inline struct chosen choose(void)
{
	struct chosen chosen = { .event = random_event() };
	chosen.writes = below(40) == 0;
	chosen.from_queue = chosen.event.kind == DSA_EVENT_DISPATCH && below(2) == 0;
	return chosen;
}

static inline struct dsa_answer make(struct dsa_model *device, const struct chosen *chosen)
{
	if (chosen->writes)
		return write_queue(device, chosen->event.queue);
	if (chosen->from_queue)
		return dsa_dispatch_from(device, chosen->event.engine, chosen->event.queue);
	return dsa_step(device, &chosen->event);
}

/* Keeps the ticket of an entry that runs now. */
static inline void note(const struct chosen *chosen, struct dsa_answer answer)
{
	if (answer.kind == DSA_TAKEN || answer.kind == DSA_STARTED) {
		uint32_t place = below(TICKETS);
		tickets[place] = answer;
		engines[place] = chosen->event.engine;
	}
}

static inline struct dsa_answer random_step(struct dsa_model *device)
{
	struct chosen chosen = choose();
	struct dsa_answer answer = make(device, &chosen);
	note(&chosen, answer);
	return answer;
}

#define SAME(read) CHECK(dsa_##read(one) == dsa_##read(other))
#define SAME_OF(read, number) CHECK(dsa_##read(one, number) == dsa_##read(other, number))
#define SAME_ROW(type, read, ...)                                                             \
	do {                                                                                  \
		struct type row = { 0 }, twin = { 0 };                                        \
		CHECK(dsa_##read(one, __VA_ARGS__, &row) == dsa_##read(other, __VA_ARGS__, &twin)); \
		CHECK(memcmp(&row, &twin, sizeof row) == 0);                                  \
	} while (0)

static inline void same_counts(const struct dsa_model *one, const struct dsa_model *other)
{
	SAME(held);
	SAME(next_name);
	SAME(active);
	SAME(awaited);
	SAME(phase);
	SAME(history_length);
	SAME(fates_length);
	CHECK(is_same(dsa_noted(one), dsa_noted(other)));
	for (uint16_t queue = 0; queue < caps.queues; queue++) {
		SAME_OF(occupancy, queue);
		SAME_OF(queue_phase, queue);
		SAME_ROW(dsa_queue, queue_config, queue);
	}
	for (uint16_t group = 0; group < caps.groups; group++) {
		SAME_OF(used, group);
		SAME_ROW(dsa_group, group_config, group);
	}
}

static inline void same_entries(const struct dsa_model *one, const struct dsa_model *other)
{
	for (uint32_t cell = 0; cell < dsa_cell_count(&caps); cell++)
		SAME_ROW(dsa_entry, entry_in, cell);
	for (uint16_t queue = 0; queue < caps.queues; queue++)
		for (uint64_t place = 0; place < dsa_occupancy(one, queue); place++)
			SAME_ROW(dsa_entry, waiting_at, queue, place);
	for (uint16_t engine = 0; engine < caps.engines; engine++) {
		SAME_ROW(dsa_batch, batch, engine);
		for (uint64_t place = 0; place < dsa_in_progress(one, engine); place++)
			SAME_ROW(dsa_entry, in_progress_at, engine, place);
		for (uint64_t place = 0; place < dsa_members(one, engine); place++)
			SAME_ROW(dsa_entry, member_at, engine, place);
	}
}

static inline void same_past(const struct dsa_model *one, const struct dsa_model *other)
{
	for (uint64_t row = 0; row < dsa_fates_length(one); row++) {
		struct dsa_ending fate = dsa_fate_at(one, row), twin = dsa_fate_at(other, row);
		CHECK(memcmp(&fate, &twin, sizeof fate) == 0);
	}
	for (uint64_t position = 0; position < dsa_history_length(one); position++) {
		SAME_ROW(dsa_event, history_event, position);
		CHECK(is_same(dsa_history_answer(one, position), dsa_history_answer(other, position)));
	}
}

static inline void same_device(const struct dsa_model *one, const struct dsa_model *other)
{
	same_counts(one, other);
	same_entries(one, other);
	same_past(one, other);
}

#endif
