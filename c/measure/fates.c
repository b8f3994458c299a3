/* How long dsa_fate_of takes where a history is full of entries that ended: for the name that ended first, for the one that ended
 * last, and for one that no entry has. The word says how many such histories there were, whose fates are all kept. It prints the
 * number of fates, and the least time of each in microseconds: docs/C.md, "Long runs". */
#define _POSIX_C_SOURCE 199309L
#include <stdio.h>
#include <stdlib.h>
#include <time.h>
#include "dsa_model.h"

#define TIMES 200

static double microseconds(void)
{
	struct timespec now;
	clock_gettime(CLOCK_MONOTONIC, &now);
	return (double)now.tv_sec * 1e6 + (double)now.tv_nsec / 1e3;
}

/* The least time that finding the ending of this name took. */
static double find(const struct dsa_model *device, uint32_t name, uint32_t kind)
{
	double least = 1e9;
	for (int i = 0; i < TIMES; i++) {
		double began = microseconds();
		struct dsa_ending ending = dsa_fate_of(device, name);
		double took = microseconds() - began;
		if (ending.kind != kind)
			exit(1);
		least = took < least ? took : least;
	}
	return least;
}

static void open_device(struct dsa_model *device)
{
	static const struct dsa_caps caps = { 1, 1, 1, 16, 32, 4, 3, 20 };
	static const struct dsa_queue queue = { 16, 8, 0, 1, 3, 20, 0 };
	static const struct dsa_group group = { 1, 1, 0, 32 };
	if (dsa_open(device, &caps, 1048576) != DSA_OPENED)
		exit(1);
	dsa_write_queue(device, 0, &queue);
	dsa_write_group(device, 0, &group);
	dsa_command(device, DSA_COMMAND(DSA_ENABLE_DEVICE, 0));
	dsa_command(device, DSA_COMMAND(DSA_ENABLE_WQ, 0));
}

/* As many rounds of submit, dispatch and finish as the history has room for. */
static void fill(struct dsa_model *device)
{
	struct dsa_descriptor move = { { [7] = DSA_OP_MEMMOVE, [33] = 0x10 } };
	while (dsa_capacity(device) - dsa_history_length(device) >= 3) {
		dsa_enqcmd(device, 0, 0, DSA_LIMITED, 5, &move);
		struct dsa_answer taken = dsa_dispatch(device, 0);
		dsa_finish(device, 0, taken.cell, taken.name, DSA_SUCCESS);
	}
}

int main(int count, char **words)
{
	unsigned long histories = count > 1 ? strtoul(words[1], NULL, 10) : 1;
	struct dsa_model device = DSA_CLOSED;
	open_device(&device);
	fill(&device);
	for (unsigned long i = 1; i < histories; i++) {
		if (dsa_begin_anew(&device, 1) != DSA_ANEW_BEGUN)
			return 1;
		fill(&device);
	}
	uint64_t fates = dsa_fates_length(&device);
	printf("%llu fates: first %.1f, last %.1f, none %.1f\n", (unsigned long long)fates,
		find(&device, dsa_fate_at(&device, 0).name, DSA_COMPLETED),
		find(&device, dsa_fate_at(&device, fates - 1).name, DSA_COMPLETED), find(&device, UINT32_MAX, DSA_NOT_ENDED));
	dsa_close(&device);
	return 0;
}
