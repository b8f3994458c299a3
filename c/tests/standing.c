/* What stands in a device: phases, configurations, and its entries one by one. */
#include "check.h"

/* An entry as it is read, or one of zeros. */
static struct dsa_entry entry_of(uint32_t read, const struct dsa_entry *entry)
{
	const struct dsa_entry none = { 0, 0, 0, 0, 0, 0, 0, 0, 0 };
	return read == 1 ? *entry : none;
}

static struct dsa_entry waiting(struct dsa_model *device, uint16_t queue, uint64_t place)
{
	struct dsa_entry entry;
	memset(&entry, 0xff, sizeof entry);
	return entry_of(dsa_waiting_at(device, queue, place, &entry), &entry);
}

static struct dsa_entry in_progress(struct dsa_model *device, uint16_t engine, uint64_t place)
{
	struct dsa_entry entry;
	memset(&entry, 0xff, sizeof entry);
	return entry_of(dsa_in_progress_at(device, engine, place, &entry), &entry);
}

static struct dsa_entry member(struct dsa_model *device, uint16_t engine, uint64_t place)
{
	struct dsa_entry entry;
	memset(&entry, 0xff, sizeof entry);
	return entry_of(dsa_member_at(device, engine, place, &entry), &entry);
}

static void configured(struct dsa_model *device)
{
	struct dsa_queue queue;
	struct dsa_group group;
	CHECK(dsa_phase(device) == DSA_ON && dsa_queue_phase(device, 1) == DSA_ON);
	CHECK(dsa_queue_phase(device, 2) == DSA_NO_NUMBER);
	CHECK(dsa_queue_config(device, 1, &queue) == 1 && memcmp(&queue, &own_queue, sizeof queue) == 0);
	CHECK(dsa_queue_config(device, 2, &queue) == 0 && memcmp(&queue, &own_queue, sizeof queue) == 0);
	CHECK(dsa_queue_config(device, 0, &queue) == 1 && memcmp(&queue, &shared_queue, sizeof queue) == 0);
	CHECK(dsa_group_config(device, 1, &group) == 0);
	CHECK(dsa_group_config(device, 0, &group) == 1 && group.queues == one_group.queues && group.engines == one_group.engines);
	CHECK(group.reserved == one_group.reserved && group.allowed == one_group.allowed);
}

/* The engine works on a batch of three, of which it fetched one member, and a No-op waits. */
static struct dsa_answer works(struct dsa_model *device)
{
	struct dsa_descriptor batch = descriptor_of(0x01, 0, 3), fenced = descriptor_of(0x03, 1, 8), nothing = descriptor_of(0x00, 0, 0);
	CHECK(dsa_enqcmd(device, 0, 0, DSA_UNLIMITED, 5, &batch).kind == DSA_ACCEPTED);
	struct dsa_answer taken = dsa_dispatch(device, 0);
	CHECK(taken.kind == DSA_TAKEN && dsa_fetch(device, 0, &fenced).kind == DSA_FETCHED);
	CHECK(dsa_movdir64b(device, 0, 1, DSA_UNLIMITED, &nothing).kind == DSA_ACCEPTED);
	return taken;
}

static void entries(struct dsa_model *device, struct dsa_answer batch)
{
	struct dsa_entry first = in_progress(device, 0, 0), inner = member(device, 0, 0), last = waiting(device, 1, 0);
	CHECK(dsa_in_progress(device, 0) == 1 && dsa_members(device, 0) == 1 && dsa_occupancy(device, 1) == 1);
	CHECK(first.name == batch.name && first.cell == batch.cell && first.parent == UINT32_MAX && first.running == 1);
	CHECK(first.operation == 0x01 && first.size == 3 && first.flags == 0 && first.pasid == 5 && first.queue == 0);
	CHECK(inner.name == 1 && inner.parent == batch.name && inner.running == 0);
	CHECK(inner.operation == 0x03 && inner.size == 8 && inner.flags == 1 && inner.pasid == 5 && inner.queue == 0);
	CHECK(last.name == 2 && last.parent == UINT32_MAX && last.pasid == 7 && last.queue == 1);
	CHECK(dsa_holds(device, inner.cell, inner.name) == 1 && dsa_holds(device, inner.cell, 7) == 0);
	CHECK(dsa_holds(device, first.cell, inner.name) == 0);
}

static void wrong_numbers(struct dsa_model *device)
{
	struct dsa_batch note;
	CHECK(dsa_in_progress(device, 1) == DSA_NONE && dsa_members(device, 65535) == DSA_NONE);
	CHECK(in_progress(device, 1, 0).pasid == 0 && in_progress(device, 0, 1).pasid == 0);
	CHECK(member(device, 1, 0).pasid == 0 && member(device, 0, UINT64_MAX).pasid == 0);
	CHECK(waiting(device, 2, 0).pasid == 0 && waiting(device, 1, 1).pasid == 0);
	CHECK(dsa_batch(device, 1, &note) == 0);
	CHECK(dsa_holds(device, UINT32_MAX, 0) == 0);
}

/* The member fails, and the fenced one behind it is abandoned. */
static void notes(struct dsa_model *device, struct dsa_answer batch)
{
	struct dsa_descriptor fenced = descriptor_of(0x00, 1, 0);
	struct dsa_batch note;
	struct dsa_answer started = dsa_start(device, 0);
	CHECK(started.kind == DSA_STARTED && member(device, 0, 0).running == 1);
	CHECK(dsa_batch(device, 0, &note) == 1 && note.name == batch.name && note.count == 3 && note.fetched == 1);
	CHECK(note.failed == 0 && note.closed == 0);
	CHECK(dsa_finish(device, 0, started.cell, started.name, DSA_PAGE_FAULT).kind == DSA_DONE);
	CHECK(dsa_batch(device, 0, &note) == 1 && note.failed == 1 && note.closed == 0);
	CHECK(dsa_holds(device, started.cell, started.name) == 0);
	CHECK(dsa_fetch(device, 0, &fenced).kind == DSA_FETCHED && dsa_start(device, 0).kind == DSA_ABANDONED);
	CHECK(dsa_batch(device, 0, &note) == 1 && note.fetched == 2 && note.closed == 1);
	CHECK(dsa_finish(device, 0, batch.cell, batch.name, DSA_SUCCESS).kind == DSA_DONE && dsa_batch(device, 0, &note) == 0);
}

static void waits(struct dsa_model *device)
{
	CHECK(dsa_awaited(device) == DSA_NONE);
	CHECK(dsa_command(device, DSA_COMMAND(DSA_DISABLE_WQ, 2)).kind == DSA_ACTIVE);
	CHECK(dsa_awaited(device) == 1 && dsa_queue_phase(device, 1) == DSA_STOPPING && dsa_queue_phase(device, 0) == DSA_ON);
	struct dsa_answer taken = dsa_dispatch(device, 0);
	CHECK(taken.kind == DSA_TAKEN && dsa_awaited(device) == 1);
	CHECK(dsa_finish(device, 0, taken.cell, taken.name, DSA_SUCCESS).kind == DSA_DONE && dsa_awaited(device) == 0);
	CHECK(dsa_poll(device).kind == DSA_FINISHED && dsa_queue_phase(device, 1) == DSA_OFF);
}

static void closed(struct dsa_model *device)
{
	struct dsa_queue queue;
	struct dsa_group group;
	struct dsa_batch note;
	CHECK(dsa_phase(device) == DSA_NO_NUMBER && dsa_queue_phase(device, 0) == DSA_NO_NUMBER
		&& dsa_awaited(device) == DSA_NONE);
	CHECK(dsa_in_progress(device, 0) == DSA_NONE && dsa_members(device, 0) == DSA_NONE);
	CHECK(dsa_queue_config(device, 0, &queue) == 0 && dsa_group_config(device, 0, &group) == 0 && dsa_batch(device, 0, &note) == 0);
	CHECK(waiting(device, 0, 0).pasid == 0 && in_progress(device, 0, 0).pasid == 0 && member(device, 0, 0).pasid == 0);
	CHECK(dsa_holds(device, 0, 0) == 0 && dsa_history_is_full(device) == 0);
}

int main(void)
{
	struct dsa_model device = enabled(100);
	configured(&device);
	struct dsa_answer batch = works(&device);
	CHECK(dsa_command(&device, DSA_COMMAND(DSA_DRAIN_ALL, 0)).kind == DSA_ACTIVE && dsa_awaited(&device) == 2);
	entries(&device, batch);
	wrong_numbers(&device);
	notes(&device, batch);
	CHECK(dsa_awaited(&device) == 1 && dsa_command(&device, DSA_COMMAND(DSA_ABORT_ALL, 0)).kind == DSA_REFUSED);
	struct dsa_answer taken = dsa_dispatch(&device, 0);
	CHECK(dsa_finish(&device, 0, taken.cell, taken.name, DSA_SUCCESS).kind == DSA_DONE && dsa_poll(&device).kind == DSA_FINISHED);
	struct dsa_descriptor nothing = descriptor_of(0x00, 0, 0);
	CHECK(dsa_movdir64b(&device, 0, 1, DSA_UNLIMITED, &nothing).kind == DSA_ACCEPTED);
	waits(&device);
	dsa_close(&device);
	closed(&device);
	device = enabled(7);
	CHECK(dsa_history_is_full(&device) == 0 && dsa_poll(&device).kind == DSA_NOTHING);
	CHECK(dsa_movdir64b(&device, 0, 1, DSA_UNLIMITED, &nothing).kind == DSA_ACCEPTED);
	CHECK(dsa_history_is_full(&device) == 1 && dsa_poll(&device).kind == DSA_FULL);
	dsa_close(&device);
	return 0;
}
