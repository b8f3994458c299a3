/* Devices of 33 and of 63 queues and engines, numbers that are no power of two, hold what they say. */
#include "check.h"

#define PLACES 64
#define SLOTS 16
#define GROUPS 8

/* Every eighth number below the count, from the first one on, as a mask. */
static uint64_t every_eighth(uint16_t first, uint16_t count)
{
	uint64_t mask = 0;
	for (uint16_t number = first; number < count; number += GROUPS)
		mask |= 1ull << number;
	return mask;
}

/* The device, enabled. Queue Q and engine E are in the groups Q and E modulo 8. */
static struct dsa_model wide(uint16_t queues, uint16_t engines)
{
	struct dsa_caps caps = { queues, GROUPS, engines, 4096, 255, SLOTS, 10, 31 };
	struct dsa_queue config = { PLACES, PLACES, 0, 1, 10, 31, 0 };
	struct dsa_model device = DSA_CLOSED;
	CHECK(dsa_open(&device, &caps, 100000) == DSA_OPENED);
	for (uint16_t queue = 0; queue < queues; queue++)
		CHECK(dsa_write_queue(&device, queue, &config).kind == DSA_WRITTEN);
	for (uint16_t group = 0; group < GROUPS; group++) {
		struct dsa_group members = { every_eighth(group, queues), every_eighth(group, engines), 0, 255 };
		CHECK(dsa_write_group(&device, group, &members).kind == DSA_WRITTEN);
	}
	CHECK(dsa_command(&device, DSA_COMMAND(DSA_ENABLE_DEVICE, 0)).kind == DSA_ENDED);
	for (uint16_t queue = 0; queue < queues; queue++)
		CHECK(dsa_command(&device, DSA_COMMAND(DSA_ENABLE_WQ, queue)).kind == DSA_ENDED);
	return device;
}

/* Each queue is filled, and then has no room. */
static void fill(struct dsa_model *device, uint16_t queues)
{
	struct dsa_descriptor nothing = descriptor_of(0x00, 0, 0);
	for (uint16_t queue = 0; queue < queues; queue++) {
		while (dsa_occupancy(device, queue) < PLACES)
			CHECK(dsa_enqcmd(device, 0, queue, DSA_LIMITED, 5, &nothing).kind == DSA_ACCEPTED);
		CHECK(dsa_enqcmd(device, 0, queue, DSA_LIMITED, 5, &nothing).more == DSA_AT_LIMIT);
	}
}

/* Each engine takes as many as it has slots, from queues of its group. */
static void take(struct dsa_model *device, uint16_t engines)
{
	for (uint16_t engine = 0; engine < engines; engine++) {
		for (int slot = 0; slot < SLOTS; slot++) {
			struct dsa_answer taken = dsa_dispatch(device, engine);
			CHECK(taken.kind == DSA_TAKEN && taken.more % GROUPS == engine % GROUPS);
		}
		CHECK(dsa_dispatch(device, engine).kind == DSA_IDLE && dsa_in_progress(device, engine) == SLOTS);
	}
}

static void nothing_more(struct dsa_model *device, uint16_t queues, uint16_t engines)
{
	CHECK(dsa_occupancy(device, queues - 1) == PLACES && dsa_occupancy(device, queues) == DSA_NONE);
	CHECK(dsa_queue_phase(device, queues - 1) == DSA_ON && dsa_queue_phase(device, queues) == DSA_NO_NUMBER);
	CHECK(dsa_in_progress(device, engines) == DSA_NONE && dsa_dispatch(device, engines).kind == DSA_IDLE);
}

static void holds_what_it_says(uint16_t queues, uint16_t engines)
{
	struct dsa_model device = wide(queues, engines);
	uint64_t waiting = (uint64_t)PLACES * queues, taken = (uint64_t)SLOTS * engines;
	fill(&device, queues);
	CHECK(dsa_held(&device) == waiting);
	take(&device, engines);
	fill(&device, queues);
	CHECK(dsa_held(&device) == waiting + taken);
	nothing_more(&device, queues, engines);
	CHECK(dsa_command(&device, DSA_COMMAND(DSA_ABORT_ALL, 0)).more == waiting + taken);
	CHECK(dsa_held(&device) == 0 && dsa_fates_length(&device) == waiting + taken);
	dsa_close(&device);
}

int main(void)
{
	holds_what_it_says(33, 33);
	holds_what_it_says(33, 63);
	holds_what_it_says(63, 33);
	holds_what_it_says(63, 63);
	return 0;
}
