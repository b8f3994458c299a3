/* A client submits through the limited portal of a shared queue. At the threshold it is told to come again, and backs off: it lets
 * the engine work a while, twice as long each time. */
#include <stdio.h>
#include "dsa_model.h"

static struct dsa_answer ok(struct dsa_answer answer)
{
	if (answer.kind == DSA_REFUSED)
		printf("refused: %s\n", dsa_fault_name(answer.more));
	return answer;
}

static void engine_works(struct dsa_model *device, unsigned rounds)
{
	while (rounds-- > 0) {
		struct dsa_answer taken = dsa_dispatch(device, 0);
		if (taken.kind != DSA_TAKEN)
			return;
		struct dsa_answer done = dsa_finish(device, 0, taken.cell, taken.name, DSA_SUCCESS);
		printf("  entry %u: %s\n", taken.name, dsa_status_name(done.more));
	}
}

int main(void)
{
	struct dsa_caps caps = { 1, 1, 1, 8, 16, 2, 3, 20 };
	struct dsa_queue queue = { 8, 3, 0, 1, 3, 20, 0 };
	struct dsa_group group = { 1, 1, 4, 16 };
	struct dsa_descriptor move = { { 0 } };
	struct dsa_model device = DSA_CLOSED;

	move.bytes[7] = 0x03;        /* Memory Move */
	move.bytes[33] = 0x10;       /* of 4096 bytes */
	if (dsa_open(&device, &caps, 1000) != DSA_OPENED)
		return 1;
	ok(dsa_write_queue(&device, 0, &queue));
	ok(dsa_write_group(&device, 0, &group));
	ok(dsa_command(&device, DSA_COMMAND(DSA_ENABLE_DEVICE, 0)));
	ok(dsa_command(&device, DSA_COMMAND(DSA_ENABLE_WQ, 0)));

	for (unsigned i = 0; i < 8; i++) {
		for (unsigned wait = 1;; wait *= 2) {
			struct dsa_answer answer = dsa_enqcmd(&device, 0, 0, DSA_LIMITED, 5, &move);
			printf("submission %u: %s, %u waiting\n", i, dsa_kind_name(answer.kind), (unsigned)dsa_occupancy(&device, 0));
			if (answer.kind == DSA_ACCEPTED)
				break;
			if (answer.kind != DSA_RETRY)
				return 1;
			engine_works(&device, wait);
		}
	}
	engine_works(&device, 8);
	printf("%u ended, %u held\n", (unsigned)dsa_fates_length(&device), (unsigned)dsa_held(&device));
	dsa_close(&device);
	return 0;
}
