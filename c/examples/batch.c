/* A batch of three members: a move that meets a page fault, a fill, and behind a fence a move that is never run. */
#include <stdio.h>
#include "dsa_model.h"

static struct dsa_descriptor of(uint8_t operation, uint8_t flags, uint32_t size)
{
	struct dsa_descriptor descriptor = { { 0 } };
	descriptor.bytes[4] = flags;
	descriptor.bytes[7] = operation;
	for (int i = 0; i < 4; i++)
		descriptor.bytes[32 + i] = (uint8_t)(size >> (8 * i));
	return descriptor;
}

static struct dsa_answer show(const char *what, struct dsa_answer answer)
{
	printf("%s: %s", what, dsa_kind_name(answer.kind));
	if (answer.kind == DSA_DONE)
		printf(", %s", dsa_status_name(answer.more));
	else if (answer.more != 0)
		printf(", %u", answer.more);
	printf("\n");
	return answer;
}

int main(void)
{
	struct dsa_caps caps = { 1, 1, 1, 8, 16, 2, 3, 20 };
	struct dsa_queue queue = { 8, 3, 0, 1, 3, 20, 0 };
	struct dsa_group group = { 1, 1, 4, 16 };
	struct dsa_limits limits = { 3, 20 };
	struct dsa_descriptor batch = of(0x01, 0, 3), move = of(0x03, 0, 8192), fill = of(0x04, 0, 64), last = of(0x03, 1, 64);
	struct dsa_model device = DSA_CLOSED;

	if (dsa_open(&device, &caps, 1000) != DSA_OPENED)
		return 1;
	dsa_write_queue(&device, 0, &queue);
	dsa_write_group(&device, 0, &group);
	dsa_command(&device, DSA_COMMAND(DSA_ENABLE_DEVICE, 0));
	dsa_command(&device, DSA_COMMAND(DSA_ENABLE_WQ, 0));
	printf("the move will need %u read buffers\n", dsa_need(&move, &limits, 1));

	show("submit the batch", dsa_enqcmd(&device, 0, 0, DSA_UNLIMITED, 5, &batch));
	struct dsa_answer taken = show("dispatch", dsa_dispatch(&device, 0));
	show("fetch the move", dsa_fetch(&device, 0, &move));
	show("fetch the fill", dsa_fetch(&device, 0, &fill));
	show("fetch the last", dsa_fetch(&device, 0, &last));
	show("fetch once more", dsa_fetch(&device, 0, &fill));
	struct dsa_answer first = show("start", dsa_start(&device, 0));
	struct dsa_answer second = show("start", dsa_start(&device, 0));
	show("start behind the fence", dsa_start(&device, 0));
	show("finish the batch", dsa_finish(&device, 0, taken.cell, taken.name, DSA_SUCCESS));
	show("finish the move", dsa_finish(&device, 0, first.cell, first.name, DSA_PAGE_FAULT));
	show("finish the fill", dsa_finish(&device, 0, second.cell, second.name, DSA_SUCCESS));
	show("start behind the fence", dsa_start(&device, 0));
	show("finish the batch", dsa_finish(&device, 0, taken.cell, taken.name, DSA_SUCCESS));
	for (uint64_t i = 0; i < dsa_fates_length(&device); i++) {
		struct dsa_ending end = dsa_fate_at(&device, i);
		printf("entry %u: %s\n", end.name, end.kind == DSA_BEHIND_FENCE ? "abandoned" : dsa_status_name(end.number));
	}
	dsa_close(&device);
	return 0;
}
