/* Every call and every kind of answer at least once. */
#include "check.h"

static bool seen[25];

static struct dsa_answer is(struct dsa_answer answer, uint32_t kind)
{
	if (answer.kind != kind) {
		fprintf(stderr, "got %s for %s\n", dsa_kind_name(answer.kind), dsa_kind_name(kind));
		exit(1);
	}
	seen[kind] = true;
	return answer;
}

static void batches(struct dsa_model *device)
{
	struct dsa_descriptor batch = descriptor_of(0x01, 0, 3), big = descriptor_of(0x03, 0, 16384), last = descriptor_of(0x03, 1, 64);
	is(dsa_fetch(device, 0, &big), DSA_NO_BATCH);
	struct dsa_answer accepted = is(dsa_enqcmd(device, 0, 0, DSA_UNLIMITED, 5, &batch), DSA_ACCEPTED);
	struct dsa_answer taken = is(dsa_dispatch(device, 0), DSA_TAKEN);
	CHECK(taken.name == accepted.name && taken.cell == accepted.cell && taken.more == 0);
	is(dsa_start(device, 0), DSA_NOTHING);
	is(dsa_fetch(device, 0, &big), DSA_FETCHED);
	is(dsa_fetch(device, 0, &big), DSA_FETCHED);
	struct dsa_answer third = is(dsa_fetch(device, 0, &last), DSA_FETCHED);
	is(dsa_fetch(device, 0, &big), DSA_ALL_FETCHED);
	struct dsa_answer first = is(dsa_start(device, 0), DSA_STARTED);
	CHECK(dsa_used(device, 0) == 4);
	is(dsa_start(device, 0), DSA_NO_BUFFERS);
	is(dsa_finish(device, 0, first.cell + 1, first.name, DSA_SUCCESS), DSA_GONE);
	CHECK(is(dsa_finish(device, 0, first.cell, first.name, DSA_PAGE_FAULT), DSA_DONE).more == 0x03);
	struct dsa_answer second = is(dsa_start(device, 0), DSA_STARTED);
	is(dsa_start(device, 0), DSA_FENCE_WAIT);
	is(dsa_finish(device, 0, taken.cell, taken.name, DSA_SUCCESS), DSA_NOT_READY);
	CHECK(is(dsa_finish(device, 0, second.cell, second.name, DSA_SUCCESS), DSA_DONE).more == 0x01);
	CHECK(is(dsa_start(device, 0), DSA_ABANDONED).more == 1);
	CHECK(is(dsa_finish(device, 0, taken.cell, taken.name, DSA_SUCCESS), DSA_DONE).more == 0x05);
	struct dsa_ending left = dsa_fate_of(device, third.name), whole = dsa_fate_of(device, taken.name);
	CHECK(left.kind == DSA_BEHIND_FENCE && left.parent == taken.name && left.name == third.name && left.number == 0);
	CHECK(whole.kind == DSA_COMPLETED && whole.number == 0x05 && whole.parent == UINT32_MAX);
	CHECK(dsa_fates_length(device) == 4 && dsa_fate_at(device, 0).name == first.name && dsa_fate_at(device, 4).kind == DSA_NOT_ENDED);
}

static void errors(struct dsa_model *device)
{
	struct dsa_descriptor nothing = descriptor_of(0x00, 0, 0);
	is(dsa_noted(device), DSA_NOTHING);
	is(dsa_clear_error(device), DSA_NOTHING);
	CHECK(is(dsa_movdir64b(device, 1, 0, DSA_UNLIMITED, &nothing), DSA_DROPPED).more == DSA_WRONG_KIND);
	is(dsa_movdir64b(device, 1, 9, DSA_UNLIMITED, &nothing), DSA_DROPPED);
	struct dsa_answer noted = is(dsa_noted(device), DSA_CLEARED);
	CHECK(noted.name == 0 && noted.cell == 1 && noted.more == DSA_WRONG_KIND);
	CHECK(memcmp(&noted, &(struct dsa_answer){ DSA_CLEARED, 0, 1, DSA_WRONG_KIND }, sizeof noted) == 0);
	is(dsa_clear_error(device), DSA_CLEARED);
	is(dsa_noted(device), DSA_NOTHING);
	for (int i = 0; i < 3; i++)
		is(dsa_enqcmd(device, 0, 0, DSA_LIMITED, 5, &nothing), DSA_ACCEPTED);
	CHECK(is(dsa_enqcmd(device, 0, 0, DSA_LIMITED, 5, &nothing), DSA_RETRY).more == DSA_AT_LIMIT);
	CHECK(dsa_occupancy(device, 0) == 3 && dsa_held(device) == 3);
}

static void commands(struct dsa_model *device)
{
	is(dsa_poll(device), DSA_NOTHING);
	CHECK(dsa_active(device) == DSA_NO_NUMBER);
	is(dsa_command(device, DSA_COMMAND(DSA_DRAIN_ALL, 0)), DSA_ACTIVE);
	CHECK(dsa_active(device) == DSA_DRAIN_ALL);
	is(dsa_poll(device), DSA_ACTIVE);
	CHECK(is(dsa_command(device, DSA_COMMAND(DSA_DRAIN_ALL, 0)), DSA_REFUSED).more == 17);
	for (int i = 0; i < 3; i++) {
		struct dsa_answer taken = is(dsa_dispatch(device, 0), DSA_TAKEN);
		is(dsa_finish(device, 0, taken.cell, taken.name, DSA_SUCCESS), DSA_DONE);
	}
	is(dsa_poll(device), DSA_FINISHED);
	is(dsa_dispatch(device, 0), DSA_IDLE);
	struct dsa_descriptor nothing = descriptor_of(0x00, 0, 0);
	struct dsa_answer lost = is(dsa_movdir64b(device, 0, 1, DSA_UNLIMITED, &nothing), DSA_ACCEPTED);
	CHECK(dsa_fate_of(device, lost.name).kind == DSA_NOT_ENDED);
	CHECK(is(dsa_command(device, DSA_COMMAND(DSA_ABORT_ALL, 0)), DSA_ENDED).more == 1);
	struct dsa_ending end = dsa_fate_of(device, lost.name);
	CHECK(end.kind == DSA_ABORTED && end.number == DSA_ABORT_ALL);
}

int main(void)
{
	struct dsa_model device = DSA_CLOSED;
	is(dsa_poll(&device), DSA_NO_DEVICE);
	device = enabled(1000);
	seen[DSA_WRITTEN] = true;
	batches(&device);
	errors(&device);
	commands(&device);
	uint64_t steps = dsa_history_length(&device);
	CHECK(dsa_capacity(&device) == 1000 && steps > 20 && dsa_next_name(&device) == 8);
	CHECK(is(dsa_history_answer(&device, 6), DSA_ACCEPTED).name == 0);
	is(dsa_history_answer(&device, steps), DSA_NOTHING);
	is(dsa_history_answer(&device, UINT64_MAX), DSA_NOTHING);
	dsa_close(&device);

	struct dsa_descriptor move = descriptor_of(0x03, 0, 8192), image;
	struct dsa_limits limits = { 3, 20 };
	CHECK(dsa_open(&device, &small_caps, 0) == DSA_OPENED);
	is(dsa_clear_error(&device), DSA_FULL);
	is(dsa_enqcmd(&device, 0, 0, 2, 5, &move), DSA_BAD_ARGUMENT);
	dsa_close(&device);
	CHECK(dsa_need(&move, &limits, 0) == 2 && dsa_check(&move, &limits, 0) == 0);
	CHECK(dsa_status(&move, &limits, 0, DSA_PAGE_FAULT) == 0x03 && dsa_status(&move, &limits, 1, DSA_SUCCESS) == 0x01);
	dsa_image(&move, 0x12345, &image);
	CHECK(image.bytes[0] == 0x45 && image.bytes[1] == 0x23 && image.bytes[2] == 0x01 && image.bytes[3] == 0);
	CHECK(memcmp(image.bytes + 4, move.bytes + 4, 60) == 0);
	for (uint32_t kind = 0; kind < 25; kind++)
		CHECK(seen[kind]);
	CHECK(strcmp(dsa_kind_name(24), "bad argument") == 0 && strcmp(dsa_kind_name(25), "?") == 0);
	CHECK(strcmp(dsa_fault_name(20), "BadIndex") == 0 && strcmp(dsa_command_name(12), "Abort PASID") == 0);
	CHECK(strcmp(dsa_status_name(0x14), "DSA_COMP_DESC_CNT_ERANGE") == 0);
	return 0;
}
