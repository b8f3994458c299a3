/* What the tests share. */
#ifndef CHECK_H
#define CHECK_H
#include <stdio.h>
#include <stdlib.h>
#include <string.h>
#include "dsa_model.h"

#define CHECK(is)                                                        \
	do {                                                             \
		if (!(is)) {                                             \
			fprintf(stderr, "%s:%d: %s: %s\n",               \
				__FILE__, __LINE__, __func__, #is);      \
			exit(1);                                         \
		}                                                        \
	} while (0)

static const struct dsa_caps small_caps = { 2, 1, 1, 16, 16, 2, 3, 20 };
static const struct dsa_queue shared_queue = { 8, 3, 0, 1, 3, 20, 0 };
static const struct dsa_queue own_queue = { 4, 0, 1, 2, 3, 20, 7 };
static const struct dsa_group one_group = { 3, 1, 4, 4 };

static inline struct dsa_descriptor descriptor_of(uint8_t operation, uint8_t flags, uint32_t size)
{
	struct dsa_descriptor descriptor;
	memset(&descriptor, 0, sizeof descriptor);
	descriptor.bytes[4] = flags;
	descriptor.bytes[7] = operation;
	for (int i = 0; i < 4; i++)
		descriptor.bytes[32 + i] = (uint8_t)(size >> (8 * i));
	return descriptor;
}

/* A device with a shared queue 0 and a dedicated queue 1, both enabled. */
static inline struct dsa_model enabled(uint64_t capacity)
{
	struct dsa_model device = DSA_CLOSED;
	CHECK(dsa_open(&device, &small_caps, capacity) == DSA_OPENED);
	CHECK(dsa_write_queue(&device, 0, &shared_queue).kind == DSA_WRITTEN);
	CHECK(dsa_write_queue(&device, 1, &own_queue).kind == DSA_WRITTEN);
	CHECK(dsa_write_group(&device, 0, &one_group).kind == DSA_WRITTEN);
	CHECK(dsa_command(&device, DSA_COMMAND(DSA_ENABLE_DEVICE, 0)).kind == DSA_ENDED);
	CHECK(dsa_command(&device, DSA_COMMAND(DSA_ENABLE_WQ, 0)).kind == DSA_ENDED);
	CHECK(dsa_command(&device, DSA_COMMAND(DSA_ENABLE_WQ, 1)).kind == DSA_ENDED);
	return device;
}
#endif
