/* Two devices at once know nothing of each other; a device of the greatest capabilities holds what it says. */
#include "check.h"

/* The greatest device, enabled: 64 queues of 64 places and 64 engines, in 8 groups of 8 and 8. */
static struct dsa_model greatest(void)
{
	struct dsa_caps caps = { 64, 8, 64, 4096, 255, 16, 10, 31 };
	struct dsa_queue config = { 64, 64, 0, 1, 10, 31, 0 };
	struct dsa_model large = DSA_CLOSED;
	CHECK(dsa_open(&large, &caps, 1048576) == DSA_OPENED);
	for (uint16_t queue = 0; queue < 64; queue++)
		CHECK(dsa_write_queue(&large, queue, &config).kind == DSA_WRITTEN);
	for (uint16_t group = 0; group < 8; group++) {
		struct dsa_group eight = { 255ull << (8 * group), 255ull << (8 * group), 0, 255 };
		CHECK(dsa_write_group(&large, group, &eight).kind == DSA_WRITTEN);
	}
	CHECK(dsa_command(&large, DSA_COMMAND(DSA_ENABLE_DEVICE, 0)).kind == DSA_ENDED);
	for (uint16_t queue = 0; queue < 64; queue++)
		CHECK(dsa_command(&large, DSA_COMMAND(DSA_ENABLE_WQ, queue)).kind == DSA_ENDED);
	return large;
}

/* The queue is filled, its first place by the largest batch where that is asked for, and then has no room. */
static void fill(struct dsa_model *large, uint16_t queue, bool batched)
{
	struct dsa_descriptor batch = descriptor_of(0x01, 0, 1024), nothing = descriptor_of(0x00, 0, 0);
	while (dsa_occupancy(large, queue) < 64) {
		bool first = batched && dsa_occupancy(large, queue) == 0;
		CHECK(dsa_enqcmd(large, 0, queue, DSA_UNLIMITED, 5, first ? &batch : &nothing).kind == DSA_ACCEPTED);
	}
	CHECK(dsa_enqcmd(large, 0, queue, DSA_UNLIMITED, 5, &nothing).more == DSA_AT_LIMIT);
}

/* The engine takes as many as it has slots, one of them a batch, and fetches all members of that. */
static void work(struct dsa_model *large, uint16_t engine)
{
	struct dsa_descriptor nothing = descriptor_of(0x00, 0, 0);
	for (int i = 0; i < 16; i++)
		CHECK(dsa_dispatch(large, engine).kind == DSA_TAKEN);
	CHECK(dsa_dispatch(large, engine).kind == DSA_IDLE);
	for (int i = 0; i < 1024; i++)
		CHECK(dsa_fetch(large, engine, &nothing).kind == DSA_FETCHED);
	CHECK(dsa_fetch(large, engine, &nothing).kind == DSA_ALL_FETCHED);
}

int main(void)
{
	struct dsa_model one = enabled(100), other = enabled(200);
	struct dsa_descriptor nothing = descriptor_of(0x00, 0, 0);
	for (int i = 0; i < 3; i++)
		CHECK(dsa_enqcmd(&one, 0, 0, DSA_LIMITED, 5, &nothing).kind == DSA_ACCEPTED);
	CHECK(dsa_enqcmd(&one, 0, 0, DSA_LIMITED, 5, &nothing).kind == DSA_RETRY);
	CHECK(dsa_held(&one) == 3 && dsa_held(&other) == 0);
	struct dsa_answer accepted = dsa_enqcmd(&other, 0, 0, DSA_LIMITED, 5, &nothing);
	CHECK(accepted.kind == DSA_ACCEPTED && accepted.name == 0 && dsa_capacity(&other) == 200);
	dsa_close(&one);
	CHECK(dsa_held(&other) == 1 && dsa_dispatch(&one, 0).kind == DSA_NO_DEVICE && dsa_dispatch(&other, 0).kind == DSA_TAKEN);
	dsa_close(&other);

	struct dsa_model large = greatest();
	for (uint16_t queue = 0; queue < 64; queue++)
		fill(&large, queue, true);
	CHECK(dsa_held(&large) == 4096);
	for (uint16_t engine = 0; engine < 64; engine++)
		work(&large, engine);
	for (uint16_t queue = 0; queue < 64; queue++)
		fill(&large, queue, false);
	CHECK(dsa_held(&large) == 70656);
	CHECK(dsa_command(&large, DSA_COMMAND(DSA_ABORT_ALL, 0)).more == 70656);
	CHECK(dsa_held(&large) == 0 && dsa_fates_length(&large) == 70656);
	dsa_close(&large);
	return 0;
}
