/* Why steps are answered as they are: a program asks before it makes them. */
#include <inttypes.h>
#include <stdio.h>
#include "dsa_model.h"

/* Makes the step, and prints its answer with the reason. */
static struct dsa_answer step(struct dsa_model *device, const char *what, const struct dsa_event *event)
{
	char text[200];
	uint64_t length = dsa_why(device, event, text, sizeof text);
	struct dsa_answer answer = dsa_step(device, event);
	printf("%s: %s", what, dsa_kind_name(answer.kind));
	if (length > 0 && length < DSA_NO_MEMORY)
		printf(": %s%s", text, length < sizeof text ? "" : "..");
	printf("\n");
	return answer;
}

/* Prints the names of the entries that the active command waits for. */
static void print_awaited(const struct dsa_model *device)
{
	uint32_t names[8];
	uint64_t count = dsa_awaited_names(device, names, 8);
	printf("awaited:");
	for (uint64_t i = 0; count != DSA_NONE && i < count && i < 8; i++)
		printf(" %" PRIu32, names[i]);
	printf("\n");
}

int main(void)
{
	struct dsa_caps caps = { 2, 1, 1, 8, 16, 1, 3, 20 };
	struct dsa_queue shared = { 4, 2, 0, 1, 3, 20, 0 }, own = { 4, 0, 1, 2, 3, 20, 7 };
	struct dsa_group group = { 3, 1, 4, 16 }, no_engine = { 3, 0, 4, 16 };
	struct dsa_event no_op = { .kind = DSA_EVENT_ENQCMD, .pasid = 5 };
	struct dsa_event dispatch = { .kind = DSA_EVENT_DISPATCH }, poll = { .kind = DSA_EVENT_POLL };
	struct dsa_event enable = { .kind = DSA_EVENT_COMMAND, .command = DSA_ENABLE_DEVICE };
	struct dsa_event enable_queue = { .kind = DSA_EVENT_COMMAND, .command = DSA_ENABLE_WQ };
	struct dsa_event drain = { .kind = DSA_EVENT_COMMAND, .command = DSA_DRAIN_ALL };
	struct dsa_event finish = { .kind = DSA_EVENT_FINISH };
	struct dsa_model device = DSA_CLOSED;

	if (dsa_open(&device, &caps, 1000) != DSA_OPENED)
		return 1;
	step(&device, "enable queue 0", &enable_queue);
	dsa_write_queue(&device, 0, &shared);
	dsa_write_queue(&device, 1, &own);
	dsa_write_group(&device, 0, &no_engine);
	step(&device, "enable the device", &enable);
	dsa_write_group(&device, 0, &group);
	step(&device, "enable the device", &enable);
	step(&device, "submit", &no_op);
	step(&device, "enable queue 0", &enable_queue);
	for (int i = 0; i < 3; i++)
		step(&device, "submit", &no_op);
	struct dsa_answer taken = step(&device, "dispatch", &dispatch);
	step(&device, "dispatch", &dispatch);
	step(&device, "drain", &drain);
	print_awaited(&device);
	finish.name = taken.name;
	finish.cell = taken.cell;
	step(&device, "finish", &finish);
	step(&device, "finish", &finish);
	step(&device, "poll", &poll);
	print_awaited(&device);
	dsa_close(&device);
	return 0;
}
