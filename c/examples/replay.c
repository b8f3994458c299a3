/* A device is kept as its steps, and they are made again on another one. */
#include <stdio.h>
#include <string.h>
#include "dsa_model.h"

/* A step: its event, and what the event does not say. */
struct step {
	struct dsa_event event;
	struct dsa_queue queue;   /* what it wrote to a queue, or to a group */
	struct dsa_group group;
	struct dsa_answer answer;
};

/* The stored step at that position, and whether there is one. */
static int read_step(const struct dsa_model *device, uint64_t position, struct step *step)
{
	memset(step, 0, sizeof *step);
	if (!dsa_history_event(device, position, &step->event))
		return 0;
	dsa_history_queue_config(device, position, &step->queue);
	dsa_history_group_config(device, position, &step->group);
	step->answer = dsa_history_answer(device, position);
	return 1;
}

/* Makes the step again. */
static struct dsa_answer make_step(struct dsa_model *device, const struct step *step)
{
	switch (step->event.kind) {
	case DSA_EVENT_WRITE_QUEUE:
		return dsa_write_queue(device, step->event.queue, &step->queue);
	case DSA_EVENT_WRITE_GROUP:
		return dsa_write_group(device, step->event.group, &step->group);
	case DSA_EVENT_DISPATCH: /* from the queue that was taken from, if one was */
		if (step->answer.kind == DSA_TAKEN)
			return dsa_dispatch_from(device, step->event.engine, (uint16_t)step->answer.more);
		break;
	}
	return dsa_step(device, &step->event);
}

/* Writes the capabilities, the capacity and the steps. */
static int save(const struct dsa_model *device, FILE *file)
{
	struct dsa_caps caps;
	uint64_t capacity = dsa_capacity(device);
	struct step step;

	if (!dsa_caps_of(device, &caps) || fwrite(&caps, sizeof caps, 1, file) != 1 ||
	    fwrite(&capacity, sizeof capacity, 1, file) != 1)
		return 0;
	for (uint64_t position = 0; read_step(device, position, &step); position++)
		if (fwrite(&step, sizeof step, 1, file) != 1)
			return 0;
	return 1;
}

/* Opens the device that was saved, and whether each step is answered as it was. */
static int load(struct dsa_model *device, FILE *file)
{
	struct dsa_caps caps;
	uint64_t capacity;
	struct step step;

	if (fread(&caps, sizeof caps, 1, file) != 1 || fread(&capacity, sizeof capacity, 1, file) != 1 ||
	    dsa_open(device, &caps, capacity) != DSA_OPENED)
		return 0;
	while (fread(&step, sizeof step, 1, file) == 1) {
		struct dsa_answer answer = make_step(device, &step);
		if (memcmp(&answer, &step.answer, sizeof answer) != 0)
			return 0;
	}
	return 1;
}

static void show(const char *name, const struct dsa_model *device)
{
	printf("%s: %u steps, %u held, %u in queue 0\n", name, (unsigned)dsa_history_length(device),
	       (unsigned)dsa_held(device), (unsigned)dsa_occupancy(device, 0));
}

int main(void)
{
	struct dsa_caps caps = { 1, 1, 1, 8, 16, 2, 3, 20 };
	struct dsa_queue queue = { 8, 3, 0, 1, 3, 20, 0 };
	struct dsa_group group = { 1, 1, 4, 16 };
	struct dsa_descriptor move = { { 0 } };
	struct dsa_model first = DSA_CLOSED, second = DSA_CLOSED;
	FILE *file = tmpfile();

	move.bytes[7] = 0x03;  /* Memory Move */
	move.bytes[33] = 0x10; /* of 4096 bytes */
	if (file == NULL || dsa_open(&first, &caps, 1000) != DSA_OPENED)
		return 1;
	dsa_write_queue(&first, 0, &queue);
	dsa_write_group(&first, 0, &group);
	dsa_command(&first, DSA_COMMAND(DSA_ENABLE_DEVICE, 0));
	dsa_command(&first, DSA_COMMAND(DSA_ENABLE_WQ, 0));
	for (unsigned i = 0; i < 3; i++)
		dsa_enqcmd(&first, 0, 0, DSA_UNLIMITED, 5, &move);
	struct dsa_answer taken = dsa_dispatch(&first, 0);
	show("saved", &first);
	if (!save(&first, file))
		return 1;
	dsa_close(&first);

	rewind(file);
	if (!load(&second, file))
		return 1;
	show("loaded", &second);
	struct dsa_answer done = dsa_finish(&second, 0, taken.cell, taken.name, DSA_SUCCESS);
	printf("entry %u: %s\n", taken.name, dsa_status_name(done.more));
	show("later", &second);
	dsa_close(&second);
	fclose(file);
	return 0;
}
