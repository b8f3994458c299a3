/* A program that follows what hardware did: it says which queue an engine took from, and keeps what
 * is its own of each entry by cell. */
#include "check.h"

/* What the program keeps: the 64 bytes of each entry, in a table with a place for each cell. */
static struct dsa_descriptor *kept;

static struct dsa_answer submit(struct dsa_model *device, uint16_t queue, uint8_t operation,
                                uint32_t size)
{
	struct dsa_descriptor from = descriptor_of(operation, 0, size);
	struct dsa_answer accepted = queue == 0 ? dsa_enqcmd(device, 0, 0, DSA_UNLIMITED, 5, &from)
	                                        : dsa_movdir64b(device, 0, queue, DSA_UNLIMITED, &from);
	CHECK(accepted.kind == DSA_ACCEPTED && accepted.cell < dsa_cell_count(&small_caps));
	kept[accepted.cell] = from;
	return accepted;
}

/* The entry in the cell of a ticket is that of its name, and of the bytes that were kept. */
static struct dsa_entry entry_of(const struct dsa_model *device, struct dsa_answer ticket)
{
	struct dsa_entry entry;
	CHECK(dsa_entry_in(device, ticket.cell, &entry) == 1);
	CHECK(entry.name == ticket.name && entry.cell == ticket.cell && entry.parent == UINT32_MAX);
	CHECK(entry.operation == kept[ticket.cell].bytes[7]);
	CHECK((entry.size & 0xff) == kept[ticket.cell].bytes[32]);
	return entry;
}

/* Queue 1 has the higher priority. Hardware took from queue 0 all the same. */
static void dispatches(struct dsa_model *device)
{
	struct dsa_answer low = submit(device, 0, DSA_OP_MEMMOVE, 8);
	struct dsa_answer high = submit(device, 1, DSA_OP_NOOP, 0);
	uint64_t steps = dsa_history_length(device);
	struct dsa_event event;
	CHECK(dsa_dispatch_from(device, 0, 2).kind == DSA_IDLE);
	CHECK(dsa_dispatch_from(device, 1, 0).kind == DSA_IDLE);
	CHECK(dsa_history_length(device) == steps && entry_of(device, low).running == 0);
	struct dsa_answer taken = dsa_dispatch_from(device, 0, 0);
	CHECK(dsa_history_length(device) == steps + 1 && dsa_history_event(device, steps, &event) == 1);
	CHECK(event.kind == DSA_EVENT_DISPATCH && event.engine == 0);
	CHECK(memcmp(&taken, &(struct dsa_answer){ DSA_TAKEN, low.name, low.cell, 0 }, sizeof taken) == 0);
	CHECK(entry_of(device, low).running == 1 && entry_of(device, low).pasid == 5);
	CHECK(entry_of(device, high).running == 0 && entry_of(device, high).queue == 1);
	CHECK(dsa_dispatch_from(device, 0, 0).kind == DSA_IDLE);
	CHECK(dsa_dispatch_from(device, 0, 1).more == 1);
	CHECK(dsa_finish(device, 0, low.cell, low.name, DSA_SUCCESS).kind == DSA_DONE);
}

static void cells(struct dsa_model *device)
{
	const struct dsa_entry none = { 1, 2, 3, 4, 5, 6, 7, 8, 9 };
	struct dsa_entry entry = none;
	uint32_t held = 0, count = dsa_cell_count(&small_caps);
	CHECK(count == 16 + 2 + 8 && dsa_list_count(&small_caps) == 4);
	for (uint32_t cell = 0; cell < count; cell++)
		held += dsa_entry_in(device, cell, &entry);
	CHECK(held == dsa_held(device) && held == 1);
	entry = none;
	CHECK(dsa_entry_in(device, count, &entry) == 0 && dsa_entry_in(device, UINT32_MAX, &entry) == 0);
	CHECK(memcmp(&entry, &none, sizeof entry) == 0);
}

int main(void)
{
	struct dsa_entry entry;
	struct dsa_model device = enabled(12);
	kept = calloc(dsa_cell_count(&small_caps), sizeof *kept);
	CHECK(kept != NULL);
	dispatches(&device);
	cells(&device);
	while (dsa_history_is_full(&device) == 0)
		dsa_movdir64b(&device, 0, 1, DSA_UNLIMITED, &kept[0]);
	CHECK(dsa_dispatch_from(&device, 0, 0).kind == DSA_FULL);
	CHECK(dsa_dispatch_from(&device, 9, 9).kind == DSA_FULL);
	dsa_close(&device);
	CHECK(dsa_dispatch_from(&device, 0, 0).kind == DSA_NO_DEVICE);
	CHECK(dsa_entry_in(&device, 0, &entry) == 0);
	free(kept);
	return 0;
}
