/* The events of a short life, each read back from the history. */
#include "check.h"

#define LAST_IS(device, ...) CHECK(is_last(device, (struct dsa_event){ __VA_ARGS__ }))

/* Whether the last stored step has this event, with 0 in each number that is not named. */
static bool is_last(struct dsa_model *device, struct dsa_event wanted)
{
	struct dsa_event event;
	memset(&event, 0xff, sizeof event);
	CHECK(dsa_history_event(device, dsa_history_length(device) - 1, &event) == 1);
	return memcmp(&event, &wanted, sizeof event) == 0;
}

/* Whether the last stored step wrote this configuration to a queue, and none to a group. */
static bool wrote_queue(struct dsa_model *device, const struct dsa_queue *wanted)
{
	struct dsa_queue queue;
	struct dsa_group group = { .queues = 77 };
	uint64_t last = dsa_history_length(device) - 1;
	memset(&queue, 0xff, sizeof queue);
	CHECK(dsa_history_group_config(device, last, &group) == 0 && group.queues == 77);
	return dsa_history_queue_config(device, last, &queue) == 1 && memcmp(&queue, wanted, sizeof queue) == 0;
}

static bool wrote_group(struct dsa_model *device, const struct dsa_group *wanted)
{
	struct dsa_queue queue = { .size = 77 };
	struct dsa_group group = { 0, 0, 0, 0 };
	uint64_t last = dsa_history_length(device) - 1;
	CHECK(dsa_history_queue_config(device, last, &queue) == 0 && queue.size == 77);
	return dsa_history_group_config(device, last, &group) == 1 && group.queues == wanted->queues &&
		group.engines == wanted->engines && group.reserved == wanted->reserved && group.allowed == wanted->allowed;
}

static void set_up(struct dsa_model *device)
{
	const struct dsa_caps caps = { 2, 2, 2, 16, 16, 2, 3, 20 };
	const struct dsa_group group = { 3, 2, 4, 4 };
	CHECK(dsa_open(device, &caps, 100) == DSA_OPENED);
	CHECK(dsa_write_queue(device, 0, &shared_queue).kind == DSA_WRITTEN);
	LAST_IS(device, .kind = DSA_EVENT_WRITE_QUEUE);
	CHECK(wrote_queue(device, &shared_queue));
	CHECK(dsa_write_queue(device, 1, &own_queue).kind == DSA_WRITTEN);
	LAST_IS(device, .kind = DSA_EVENT_WRITE_QUEUE, .queue = 1);
	CHECK(wrote_queue(device, &own_queue));
	CHECK(dsa_write_group(device, 1, &group).kind == DSA_WRITTEN);
	LAST_IS(device, .kind = DSA_EVENT_WRITE_GROUP, .group = 1);
	CHECK(wrote_group(device, &group));
	CHECK(dsa_command(device, DSA_COMMAND(DSA_ENABLE_DEVICE, 0)).kind == DSA_ENDED);
	LAST_IS(device, .kind = DSA_EVENT_COMMAND, .command = DSA_ENABLE_DEVICE);
	CHECK(dsa_command(device, DSA_COMMAND(DSA_ENABLE_WQ, 0)).kind == DSA_ENDED);
	CHECK(dsa_command(device, DSA_COMMAND(DSA_ENABLE_WQ, 1)).kind == DSA_ENDED);
	LAST_IS(device, .kind = DSA_EVENT_COMMAND, .command = DSA_ENABLE_WQ, .operand = 1);
}

/* Engine 1 works on a batch of two: the first member has a page fault, and the second, with a fence, is abandoned. */
static void batch(struct dsa_model *device)
{
	struct dsa_descriptor list = descriptor_of(0x01, 0, 2), fenced = descriptor_of(0x03, 1, 8);
	CHECK(dsa_enqcmd(device, 9, 0, DSA_UNLIMITED, 5, &list).kind == DSA_ACCEPTED);
	LAST_IS(device, .kind = DSA_EVENT_ENQCMD, .client = 9, .portal = DSA_UNLIMITED, .pasid = 5, .operation = 0x01, .size = 2);
	struct dsa_answer taken = dsa_dispatch(device, 1);
	CHECK(taken.kind == DSA_TAKEN);
	LAST_IS(device, .kind = DSA_EVENT_DISPATCH, .engine = 1);
	CHECK(dsa_fetch(device, 1, &fenced).kind == DSA_FETCHED);
	LAST_IS(device, .kind = DSA_EVENT_FETCH, .engine = 1, .operation = 0x03, .flags = 1, .size = 8);
	struct dsa_answer started = dsa_start(device, 1);
	CHECK(started.kind == DSA_STARTED);
	LAST_IS(device, .kind = DSA_EVENT_START, .engine = 1);
	CHECK(dsa_finish(device, 1, started.cell, started.name, DSA_PAGE_FAULT).kind == DSA_DONE);
	LAST_IS(device, .kind = DSA_EVENT_FINISH, .engine = 1, .cell = started.cell, .name = started.name, .outcome = DSA_PAGE_FAULT);
	CHECK(dsa_fetch(device, 1, &fenced).kind == DSA_FETCHED && dsa_start(device, 1).kind == DSA_ABANDONED);
	CHECK(dsa_finish(device, 1, taken.cell, taken.name, DSA_SUCCESS).kind == DSA_DONE);
	LAST_IS(device, .kind = DSA_EVENT_FINISH, .engine = 1, .cell = taken.cell, .name = taken.name);
}

/* Queue 1 is disabled while it holds an entry, and a write to it is dropped then. */
static void disable(struct dsa_model *device)
{
	struct dsa_descriptor nothing = descriptor_of(0x00, 0, 0);
	CHECK(dsa_movdir64b(device, 8, 1, DSA_LIMITED, &nothing).kind == DSA_ACCEPTED);
	LAST_IS(device, .kind = DSA_EVENT_MOVDIR64B, .client = 8, .queue = 1);
	CHECK(dsa_command(device, DSA_COMMAND(DSA_DISABLE_WQ, 2)).kind == DSA_ACTIVE);
	LAST_IS(device, .kind = DSA_EVENT_COMMAND, .command = DSA_DISABLE_WQ, .operand = 2);
	CHECK(dsa_movdir64b(device, 8, 1, DSA_UNLIMITED, &nothing).kind == DSA_DROPPED);
	struct dsa_answer taken = dsa_dispatch(device, 1);
	CHECK(dsa_finish(device, 1, taken.cell, taken.name, DSA_SUCCESS).kind == DSA_DONE);
	CHECK(dsa_poll(device).kind == DSA_FINISHED);
	LAST_IS(device, .kind = DSA_EVENT_POLL);
	CHECK(dsa_clear_error(device).kind == DSA_CLEARED);
	LAST_IS(device, .kind = DSA_EVENT_CLEAR_ERROR);
	CHECK(dsa_command(device, DSA_COMMAND(DSA_DRAIN_WQ, 0x20001)).kind == DSA_REFUSED);
	CHECK(dsa_command(device, DSA_COMMAND(DSA_DRAIN_PASID, 0xfffff)).kind == DSA_ENDED);
	LAST_IS(device, .kind = DSA_EVENT_COMMAND, .command = DSA_DRAIN_PASID, .operand = 0xfffff);
}

int main(void)
{
	struct dsa_model device = DSA_CLOSED;
	struct dsa_event event = { .kind = 77 };
	struct dsa_queue queue = { .size = 77 };
	struct dsa_group group = { .queues = 77 };
	CHECK(dsa_history_event(&device, 0, &event) == 0 && event.kind == 77);
	CHECK(dsa_history_queue_config(&device, 0, &queue) == 0 && dsa_history_group_config(&device, 0, &group) == 0);
	set_up(&device);
	batch(&device);
	disable(&device);
	CHECK(dsa_history_event(&device, dsa_history_length(&device), &event) == 0 && event.kind == 77);
	CHECK(dsa_history_event(&device, UINT64_MAX, &event) == 0 && event.kind == 77);
	CHECK(dsa_history_queue_config(&device, UINT64_MAX, &queue) == 0 && queue.size == 77);
	CHECK(dsa_history_group_config(&device, UINT64_MAX, &group) == 0 && group.queues == 77);
	CHECK(dsa_history_queue_config(&device, 0, &queue) == 1 && queue.size == shared_queue.size);
	CHECK(dsa_history_event(&device, 1, &event) == 1 && event.kind == DSA_EVENT_WRITE_QUEUE && event.queue == 1);
	dsa_close(&device);
	return 0;
}
