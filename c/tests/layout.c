/* The layout of what crosses: its sizes and offsets, and that the library reads each field where C writes it. */
#include "check.h"

#define AT(type, field, offset) _Static_assert(offsetof(struct type, field) == (offset), #type "." #field)
#define SIZE(type, size) _Static_assert(sizeof(struct type) == (size), #type)

SIZE(dsa_model, 16);
AT(dsa_model, at, 0);
AT(dsa_model, holds, 8);
SIZE(dsa_descriptor, 64);
SIZE(dsa_caps, 14);
AT(dsa_caps, queues, 0);
AT(dsa_caps, groups, 2);
AT(dsa_caps, engines, 4);
AT(dsa_caps, total_size, 6);
AT(dsa_caps, read_buffers, 8);
AT(dsa_caps, slots, 10);
AT(dsa_caps, max_batch_shift, 12);
AT(dsa_caps, max_xfer_shift, 13);
SIZE(dsa_queue, 12);
AT(dsa_queue, size, 0);
AT(dsa_queue, threshold, 2);
AT(dsa_queue, dedicated, 4);
AT(dsa_queue, priority, 5);
AT(dsa_queue, max_batch_shift, 6);
AT(dsa_queue, max_xfer_shift, 7);
AT(dsa_queue, pasid, 8);
SIZE(dsa_group, 24);
AT(dsa_group, queues, 0);
AT(dsa_group, engines, 8);
AT(dsa_group, reserved, 16);
AT(dsa_group, allowed, 18);
SIZE(dsa_limits, 2);
AT(dsa_limits, max_xfer_shift, 1);
SIZE(dsa_answer, 16);
AT(dsa_answer, kind, 0);
AT(dsa_answer, name, 4);
AT(dsa_answer, cell, 8);
AT(dsa_answer, more, 12);
SIZE(dsa_ending, 16);
AT(dsa_ending, kind, 0);
AT(dsa_ending, name, 4);
AT(dsa_ending, parent, 8);
AT(dsa_ending, number, 12);
SIZE(dsa_entry, 28);
AT(dsa_entry, name, 0);
AT(dsa_entry, cell, 4);
AT(dsa_entry, parent, 8);
AT(dsa_entry, pasid, 12);
AT(dsa_entry, flags, 16);
AT(dsa_entry, size, 20);
AT(dsa_entry, queue, 24);
AT(dsa_entry, operation, 26);
AT(dsa_entry, running, 27);
SIZE(dsa_batch, 16);
AT(dsa_batch, name, 0);
AT(dsa_batch, count, 4);
AT(dsa_batch, fetched, 8);
AT(dsa_batch, failed, 12);
AT(dsa_batch, closed, 13);
SIZE(dsa_reason, 84);
AT(dsa_reason, kind, 0);
AT(dsa_reason, queue, 4);
AT(dsa_reason, group, 8);
AT(dsa_reason, engine, 12);
AT(dsa_reason, list, 16);
AT(dsa_reason, name, 20);
AT(dsa_reason, other, 24);
AT(dsa_reason, count, 28);
AT(dsa_reason, limit, 32);
AT(dsa_reason, needed, 36);
AT(dsa_reason, in_use, 40);
AT(dsa_reason, buffers, 44);
AT(dsa_reason, kept, 48);
AT(dsa_reason, phase, 52);
AT(dsa_reason, device_phase, 56);
AT(dsa_reason, portal, 60);
AT(dsa_reason, command, 64);
AT(dsa_reason, operand, 68);
AT(dsa_reason, operation, 72);
AT(dsa_reason, status, 76);
AT(dsa_reason, shift, 80);
SIZE(dsa_event, 44);
AT(dsa_event, kind, 0);
AT(dsa_event, name, 4);
AT(dsa_event, cell, 8);
AT(dsa_event, pasid, 12);
AT(dsa_event, flags, 16);
AT(dsa_event, size, 20);
AT(dsa_event, operand, 24);
AT(dsa_event, descriptor_pasid, 28);
AT(dsa_event, client, 32);
AT(dsa_event, queue, 34);
AT(dsa_event, group, 36);
AT(dsa_event, engine, 38);
AT(dsa_event, operation, 40);
AT(dsa_event, portal, 41);
AT(dsa_event, outcome, 42);
AT(dsa_event, command, 43);

_Static_assert(DSA_VERSION / 1000000 == DSA_VERSION_MAJOR, "first number");
_Static_assert(DSA_VERSION / 1000 % 1000 == DSA_VERSION_MINOR, "second number");
_Static_assert(DSA_VERSION % 1000 == DSA_VERSION_PATCH, "third number");

/* Each capability comes back as it went in, and no two of them are equal. */
static void capabilities(struct dsa_model *other)
{
	const struct dsa_caps wanted = { 5, 4, 3, 99, 77, 2, 6, 20 };
	struct dsa_caps found = small_caps;
	struct dsa_model device = DSA_CLOSED;
	CHECK(dsa_caps_of(&device, &found) == 0 && memcmp(&found, &small_caps, sizeof found) == 0);
	CHECK(dsa_open(&device, &wanted, 10) == DSA_OPENED && dsa_caps_of(&device, &found) == 1);
	CHECK(memcmp(&found, &wanted, sizeof found) == 0);
	CHECK(dsa_caps_of(other, &found) == 1 && memcmp(&found, &small_caps, sizeof found) == 0);
	CHECK(dsa_cell_count(&wanted) == 99 + 3 * (2 + 64) && dsa_list_count(&wanted) == 5 + 2 * 3);
	dsa_close(&device);
}

/* Each field that goes in is told apart from its neighbours by what the device does with it. */
int main(void)
{
	struct dsa_limits wide = { 5, 20 }, flat = { 3, 2 };
	struct dsa_descriptor batch = descriptor_of(0x01, 0, 32), move = descriptor_of(0x03, 0, 8);
	CHECK(dsa_check(&batch, &wide, 0) == 0 && dsa_check(&batch, &flat, 0) == 0x14);
	CHECK(dsa_check(&move, &wide, 0) == 0 && dsa_check(&move, &flat, 0) == 0x13);
	CHECK(dsa_version() == DSA_VERSION);
	char version[32];
	snprintf(version, sizeof version, "%u.%u.%u", DSA_VERSION_MAJOR, DSA_VERSION_MINOR,
		 DSA_VERSION_PATCH);
	CHECK(strcmp(version, DSA_VERSION_TEXT) == 0);

	const struct dsa_caps caps[] = {
		{ 65, 1, 1, 16, 16, 2, 3, 20 }, { 2, 9, 1, 16, 16, 2, 3, 20 }, { 2, 1, 65, 16, 16, 2, 3, 20 }, { 2, 1, 1, 4097, 16, 2, 3, 20 },
		{ 2, 1, 1, 16, 256, 2, 3, 20 }, { 2, 1, 1, 16, 16, 17, 3, 20 }, { 2, 1, 1, 16, 16, 2, 11, 20 }, { 2, 1, 1, 16, 16, 2, 3, 32 }
	};
	struct dsa_model device = DSA_CLOSED;
	for (size_t i = 0; i < sizeof caps / sizeof caps[0]; i++) {
		CHECK(dsa_open(&device, &caps[i], 10) == DSA_BAD_QUEUES + i);
		CHECK(dsa_cell_count(&caps[i]) == 0 && dsa_list_count(&caps[i]) == 0);
	}
	CHECK(dsa_open(&device, &small_caps, 10) == DSA_OPENED);
	capabilities(&device);

	/* size, threshold, priority and both shifts of a queue by the fault of enabling it; numbers of Fault in docs/MODEL.md */
	const struct { struct dsa_queue queue; uint32_t fault; } queues[] = {
		{ { 0, 3, 0, 1, 3, 20, 0 }, 7 }, { { 8, 0, 0, 1, 3, 20, 0 }, 9 }, { { 8, 9, 0, 1, 3, 20, 0 }, 10 },
		{ { 8, 3, 0, 0, 3, 20, 0 }, 8 }, { { 8, 3, 0, 16, 3, 20, 0 }, 18 }, { { 8, 3, 0, 1, 4, 20, 0 }, 11 },
		{ { 8, 3, 0, 1, 3, 21, 0 }, 19 }
	};
	for (size_t i = 0; i < sizeof queues / sizeof queues[0]; i++) {
		dsa_close(&device);
		CHECK(dsa_open(&device, &small_caps, 10) == DSA_OPENED);
		CHECK(dsa_write_queue(&device, 0, &queues[i].queue).kind == DSA_WRITTEN);
		CHECK(dsa_write_group(&device, 0, &one_group).kind == DSA_WRITTEN);
		CHECK(dsa_command(&device, DSA_COMMAND(DSA_ENABLE_DEVICE, 0)).kind == DSA_ENDED);
		struct dsa_answer enable = dsa_command(&device, DSA_COMMAND(DSA_ENABLE_WQ, 0));
		CHECK(enable.kind == DSA_REFUSED && enable.more == queues[i].fault);
	}
	dsa_close(&device);

	/* the fields of a group by the fault of enabling the device */
	const struct { struct dsa_group group; uint32_t fault; } groups[] = {
		{ { 4, 1, 4, 4 }, 20 }, { { 0, 1, 4, 4 }, 6 }, { { 3, 0, 4, 4 }, 5 }, { { 3, 1, 17, 4 }, 3 }, { { 3, 1, 4, 17 }, 4 }
	};
	for (size_t i = 0; i < sizeof groups / sizeof groups[0]; i++) {
		CHECK(dsa_open(&device, &small_caps, 10) == DSA_OPENED);
		CHECK(dsa_write_queue(&device, 0, &shared_queue).kind == DSA_WRITTEN);
		CHECK(dsa_write_group(&device, 0, &groups[i].group).kind == DSA_WRITTEN);
		struct dsa_answer enable = dsa_command(&device, DSA_COMMAND(DSA_ENABLE_DEVICE, 0));
		CHECK(enable.kind == DSA_REFUSED && enable.more == groups[i].fault);
		dsa_close(&device);
	}
	return 0;
}
