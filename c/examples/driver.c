/* A driver's life by command words: reset, configure, enable, work, drain, disable. */
#include <stdio.h>
#include "dsa_model.h"

static void command(struct dsa_model *device, uint32_t number, uint32_t operand)
{
	struct dsa_answer answer = dsa_command(device, DSA_COMMAND(number, operand));
	printf("%s: %s", dsa_command_name(number), dsa_kind_name(answer.kind));
	if (answer.kind == DSA_REFUSED)
		printf(", %s", dsa_fault_name(answer.more));
	printf("\n");
}

static void work(struct dsa_model *device)
{
	struct dsa_answer taken = dsa_dispatch(device, 0);
	if (taken.kind == DSA_TAKEN) {
		struct dsa_answer done = dsa_finish(device, 0, taken.cell, taken.name, DSA_SUCCESS);
		printf("entry %u: %s\n", taken.name, dsa_status_name(done.more));
	}
}

int main(void)
{
	struct dsa_caps caps = { 2, 1, 1, 8, 16, 4, 3, 20 };
	struct dsa_queue shared = { 4, 2, 0, 1, 3, 20, 0 }, own = { 4, 0, 1, 2, 3, 20, 7 };
	struct dsa_group group = { 3, 1, 4, 16 };
	struct dsa_descriptor nothing = { { 0 } };
	struct dsa_model device = DSA_CLOSED;

	if (dsa_open(&device, &caps, 1000) != DSA_OPENED)
		return 1;
	command(&device, DSA_RESET_DEVICE, 0);
	command(&device, DSA_ENABLE_WQ, 0);
	dsa_write_queue(&device, 0, &shared);
	dsa_write_queue(&device, 1, &own);
	dsa_write_group(&device, 0, &group);
	command(&device, DSA_ENABLE_DEVICE, 0);
	command(&device, DSA_ENABLE_WQ, 0);
	command(&device, DSA_ENABLE_WQ, 1);
	struct dsa_answer locked = dsa_write_queue(&device, 0, &own);
	printf("write queue 0 now: %s, %s\n", dsa_kind_name(locked.kind), dsa_fault_name(locked.more));

	dsa_enqcmd(&device, 0, 0, DSA_LIMITED, 5, &nothing);
	dsa_movdir64b(&device, 1, 1, DSA_UNLIMITED, &nothing);
	dsa_movdir64b(&device, 1, 0, DSA_UNLIMITED, &nothing);
	struct dsa_answer error = dsa_clear_error(&device);
	printf("noted: queue %u, cause %u\n", error.name, error.more);
	command(&device, DSA_DRAIN_WQ, 1);
	printf("active: %s; poll: %s\n", dsa_command_name(dsa_active(&device)), dsa_kind_name(dsa_poll(&device).kind));
	while (dsa_poll(&device).kind == DSA_ACTIVE)
		work(&device);
	printf("drained; %u held\n", (unsigned)dsa_held(&device));
	command(&device, DSA_DISABLE_DEVICE, 0);
	while (dsa_poll(&device).kind == DSA_ACTIVE)
		work(&device);
	printf("%u steps stored\n", (unsigned)dsa_history_length(&device));
	dsa_close(&device);
	return 0;
}
