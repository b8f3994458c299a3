/* Wrong numbers are answered as the header says. */
#include "check.h"

/* Each field of struct dsa_caps with its limits, in the order of the fields. */
static const struct { uint32_t wrong; uint16_t least, greatest; } limits_of[] = {
	{ DSA_BAD_QUEUES, 1, 64 }, { DSA_BAD_GROUPS, 1, 8 }, { DSA_BAD_ENGINES, 1, 64 }, { DSA_BAD_TOTAL_SIZE, 1, 4096 },
	{ DSA_BAD_READ_BUFFERS, 1, 255 }, { DSA_BAD_SLOTS, 1, 16 },
	{ DSA_BAD_MAX_BATCH_SHIFT, 1, 10 }, { DSA_BAD_MAX_XFER_SHIFT, 0, 31 }
};
static const size_t fields = sizeof limits_of / sizeof limits_of[0];

static void put(struct dsa_caps *caps, size_t field, unsigned value)
{
	switch (field) {
	case 0: caps->queues = (uint16_t)value; break;
	case 1: caps->groups = (uint16_t)value; break;
	case 2: caps->engines = (uint16_t)value; break;
	case 3: caps->total_size = (uint16_t)value; break;
	case 4: caps->read_buffers = (uint16_t)value; break;
	case 5: caps->slots = (uint16_t)value; break;
	case 6: caps->max_batch_shift = (uint8_t)value; break;
	default: caps->max_xfer_shift = (uint8_t)value; break;
	}
}

static void opens_as(const struct dsa_caps *caps, uint64_t capacity, uint32_t wanted)
{
	struct dsa_model device = DSA_CLOSED;
	CHECK(dsa_open(&device, caps, capacity) == wanted && device.holds == (wanted == DSA_OPENED));
	CHECK((dsa_size(caps, capacity) == 0) == (wanted != DSA_OPENED));
	dsa_close(&device);
}

/* Two fields that are wrong: the first one is told, before a capacity that is wrong, too. */
static void two_wrong_fields(size_t first, size_t second)
{
	struct dsa_caps caps = small_caps;
	put(&caps, first, limits_of[first].greatest + 1u);
	put(&caps, second, limits_of[second].greatest + 1u);
	opens_as(&caps, 10, limits_of[first].wrong);
	opens_as(&caps, 1048577, limits_of[first].wrong);
}

/* Each field at its limits, one below and one above them, and at its largest number. */
static void wrong_fields(void)
{
	for (size_t i = 0; i < fields; i++) {
		struct dsa_caps caps = small_caps;
		const unsigned good[] = { limits_of[i].least, limits_of[i].greatest },
			bad[] = { good[0] - 1, good[1] + 1, UINT16_MAX };
		for (size_t k = 0; k < 2; k++) {
			put(&caps, i, good[k]);
			opens_as(&caps, 10, DSA_OPENED);
		}
		for (size_t k = 0; k < 3; k++) {
			put(&caps, i, bad[k]);
			opens_as(&caps, 10, limits_of[i].wrong);
		}
		for (size_t k = i + 1; k < fields; k++)
			two_wrong_fields(i, k);
	}
}

int main(void)
{
	wrong_fields();
	struct dsa_model device = DSA_CLOSED;
	struct dsa_descriptor nothing = descriptor_of(0x00, 0, 0), odd;
	struct dsa_limits limits = { 255, 255 };
	memset(&odd, 0xff, sizeof odd);

	/* a closed handle */
	CHECK(dsa_command(&device, 0).kind == DSA_REFUSED && dsa_command(&device, DSA_COMMAND(1, 0)).kind == DSA_NO_DEVICE);
	CHECK(dsa_capacity(&device) == DSA_NONE && dsa_held(&device) == DSA_NONE && dsa_active(&device) == DSA_NO_NUMBER);
	CHECK(dsa_occupancy(&device, 0) == DSA_NONE && dsa_used(&device, 0) == DSA_NONE && dsa_next_name(&device) == DSA_NONE);
	CHECK(dsa_history_length(&device) == DSA_NONE && dsa_fates_length(&device) == DSA_NONE);
	CHECK(dsa_noted(&device).kind == DSA_NO_DEVICE && dsa_history_answer(&device, 0).kind == DSA_NO_DEVICE);
	CHECK(dsa_fate_at(&device, 0).kind == DSA_NOT_ENDED && dsa_fate_of(&device, 0).kind == DSA_NOT_ENDED);
	dsa_close(&device);
	dsa_close(&device);

	/* opening */
	struct dsa_caps none = { 0, 0, 0, 0, 0, 0, 0, 0 };
	CHECK(dsa_open(&device, &none, 10) == DSA_BAD_QUEUES);
	CHECK(dsa_open(&device, &none, UINT64_MAX) == DSA_BAD_QUEUES);
	CHECK(dsa_open(&device, &small_caps, 1048577) == DSA_BAD_CAPACITY);
	CHECK(dsa_open(&device, &small_caps, UINT64_MAX) == DSA_BAD_CAPACITY);
	CHECK(dsa_open(&device, &small_caps, 10) == DSA_OPENED);
	CHECK(dsa_open(&device, &small_caps, 20) == DSA_ALREADY_OPEN && dsa_capacity(&device) == 10);
	CHECK(dsa_open(&device, &none, 20) == DSA_ALREADY_OPEN);
	dsa_close(&device);

	device = enabled(1000);
	uint64_t steps = dsa_history_length(&device);
	const uint16_t numbers[] = { 2, 16, 255, 65535 };
	for (size_t i = 0; i < sizeof numbers / sizeof numbers[0]; i++) {
		uint16_t number = numbers[i];
		CHECK(dsa_dispatch(&device, number).kind == DSA_IDLE);
		CHECK(dsa_fetch(&device, number, &nothing).kind == DSA_NO_BATCH);
		CHECK(dsa_start(&device, number).kind == DSA_NOTHING);
		CHECK(dsa_finish(&device, number, 0, 0, DSA_SUCCESS).kind == DSA_GONE);
		CHECK(dsa_occupancy(&device, number) == DSA_NONE && dsa_used(&device, number) == DSA_NONE);
		CHECK(dsa_write_queue(&device, number, &shared_queue).kind == DSA_REFUSED);
		CHECK(dsa_write_group(&device, number, &one_group).kind == DSA_REFUSED);
		CHECK(dsa_enqcmd(&device, number, 0, number, 5, &nothing).kind == DSA_BAD_ARGUMENT);
		CHECK(dsa_movdir64b(&device, number, 1, 7, &nothing).kind == DSA_BAD_ARGUMENT);
		CHECK(dsa_finish(&device, 0, number, number, number).kind == DSA_BAD_ARGUMENT);
		CHECK(dsa_status(&nothing, &limits, 0, number) == 0);
	}
	struct dsa_queue two = shared_queue;
	two.dedicated = 2;
	CHECK(dsa_write_queue(&device, 0, &two).kind == DSA_BAD_ARGUMENT);
	two.dedicated = 255;
	CHECK(dsa_write_queue(&device, 9, &two).kind == DSA_BAD_ARGUMENT);
	CHECK(dsa_finish(&device, 0, UINT32_MAX, UINT32_MAX, DSA_PAGE_FAULT).kind == DSA_GONE);
	for (uint32_t word = 0; word < 0xfff00000u; word += 0x00100000u)
		if ((word >> 20 & 0x1f) == 0 || (word >> 20 & 0x1f) > 12 || (word & 0x7e000000u) != 0)
			CHECK(dsa_command(&device, word).kind == DSA_REFUSED);
	CHECK(dsa_history_length(&device) == steps);

	/* a queue that the device does not have is a submission that is told to come again */
	CHECK(dsa_enqcmd(&device, 0, 999, DSA_LIMITED, 5, &nothing).more == DSA_NOT_ENABLED);
	CHECK(dsa_enqcmd(&device, 0, 0, DSA_UNLIMITED, UINT32_MAX, &odd).kind == DSA_ACCEPTED);
	struct dsa_answer taken = dsa_dispatch(&device, 0);
	CHECK(dsa_finish(&device, 0, taken.cell, taken.name, DSA_SUCCESS).more == 0x10);
	CHECK(dsa_check(&odd, &limits, UINT32_MAX) == 0x10 && dsa_need(&odd, &limits, 1) == 0);
	dsa_close(&device);
	CHECK(device.at == NULL && !device.holds);
	return 0;
}
