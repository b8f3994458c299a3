/* What dsa_open and dsa_load ask of malloc is what dsa_size says, and each way to close a device gives it back. dsa_save takes as
 * much as it writes. Of the other calls only dsa_why takes memory. The linker sends the library's calls of malloc, calloc, realloc
 * and free here. */
#include "check.h"

void *__real_malloc(size_t size);
void *__wrap_malloc(size_t size);
void *__wrap_calloc(size_t count, size_t size);
void *__wrap_realloc(void *block, size_t size);
void __real_free(void *block);
void __wrap_free(void *block);

/* The blocks that the library holds, how many bytes it asked for, and how many requests are still met, all where that is below 0. */
static struct { void *at; size_t size; } block[64];
static uint64_t asked;
static int left = -1;

static uint64_t held(void)
{
	uint64_t bytes = 0;
	for (size_t i = 0; i < sizeof block / sizeof block[0]; i++)
		bytes += block[i].at != NULL ? block[i].size : 0;
	return bytes;
}

static size_t index_of(const void *at)
{
	size_t i = 0;
	while (block[i].at != at)
		CHECK(++i < sizeof block / sizeof block[0]);
	return i;
}

void *__wrap_malloc(size_t size)
{
	if (left == 0)
		return NULL;
	left -= left > 0;
	asked += size;
	size_t i = index_of(NULL);
	block[i].at = __real_malloc(size);
	block[i].size = size;
	CHECK(block[i].at != NULL);
	return block[i].at;
}

void *__wrap_calloc(size_t count, size_t size)
{
	void *at = __wrap_malloc(count * size);
	return at != NULL ? memset(at, 0, count * size) : NULL;
}

/* No opening makes a block larger. */
void *__wrap_realloc(void *at, size_t size)
{
	fprintf(stderr, "realloc of %p to %zu bytes\n", at, size);
	exit(1);
}

void __wrap_free(void *at)
{
	if (at != NULL)
		block[index_of(at)].at = NULL;
	__real_free(at);
}

/* How many bytes an opening asked for, and whether it ended so. Closing gives them back, and closing again nothing more. */
static uint64_t opening(const struct dsa_caps *caps, uint64_t capacity, uint32_t wanted)
{
	struct dsa_model device = DSA_CLOSED;
	asked = 0;
	CHECK(dsa_open(&device, caps, capacity) == wanted);
	CHECK(held() == (wanted == DSA_OPENED ? asked : 0));
	for (int i = 0; i < 2; i++) {
		dsa_close(&device);
		CHECK(held() == 0 && device.at == NULL && !device.holds);
	}
	return asked;
}

static void sizes(void)
{
	const struct dsa_caps least = { 1, 1, 1, 1, 1, 1, 1, 0 }, greatest = { 64, 8, 64, 4096, 255, 16, 10, 31 };
	const struct dsa_caps odd = { 33, 3, 63, 100, 255, 16, 10, 31 }, even = { 63, 8, 33, 4095, 33, 15, 1, 1 };
	const struct dsa_caps none = { 0, 0, 0, 0, 0, 0, 0, 0 }, *const all[] = { &small_caps, &least, &greatest, &odd, &even };
	const uint64_t capacities[] = { 0, 1, 1000, 54321, 1048576 };
	for (size_t i = 0; i < sizeof all / sizeof all[0]; i++)
		for (size_t j = 0; j < sizeof capacities / sizeof capacities[0]; j++)
			CHECK(dsa_size(all[i], capacities[j]) == opening(all[i], capacities[j], DSA_OPENED) && asked > 0);
	CHECK(dsa_size(&none, 10) == 0 && opening(&none, 10, DSA_BAD_QUEUES) == 0);
	CHECK(dsa_size(&small_caps, 1048577) == 0 && opening(&small_caps, 1048577, DSA_BAD_CAPACITY) == 0);
	CHECK(dsa_size(&small_caps, UINT64_MAX) == 0 && dsa_size(&none, UINT64_MAX) == 0);
}

/* Histories of many lengths, each a third longer than the one before. */
static void lengths(void)
{
	for (uint64_t capacity = 1; capacity < 1048576; capacity += capacity / 3 + 1)
		CHECK(dsa_size(&small_caps, capacity) == opening(&small_caps, capacity, DSA_OPENED));
}

/* Memory is refused at each request in turn. What was taken before is given back, and the handle stays closed. */
static void refused(const struct dsa_caps *caps)
{
	struct dsa_model device = DSA_CLOSED;
	int met = 0;
	for (left = 0; dsa_open(&device, caps, 100) == DSA_OUT_OF_MEMORY; left = ++met) {
		CHECK(held() == 0 && device.at == NULL && !device.holds && met < 20);
		CHECK(dsa_held(&device) == DSA_NONE);
	}
	CHECK(left == 0 && met > 1 && device.holds);
	left = -1;
	dsa_close(&device);
	CHECK(held() == 0);
}

/* A batch in progress with a member that runs and one that does not, and a No-op that waits. */
static void hold_entries(struct dsa_model *device)
{
	struct dsa_descriptor batch = descriptor_of(0x01, 0, 3), move = descriptor_of(0x03, 0, 8),
		nothing = descriptor_of(0x00, 0, 0);
	CHECK(dsa_enqcmd(device, 0, 0, DSA_UNLIMITED, 5, &batch).kind == DSA_ACCEPTED);
	CHECK(dsa_dispatch(device, 0).kind == DSA_TAKEN);
	for (int i = 0; i < 2; i++)
		CHECK(dsa_fetch(device, 0, &move).kind == DSA_FETCHED);
	CHECK(dsa_start(device, 0).kind == DSA_STARTED);
	CHECK(dsa_movdir64b(device, 0, 1, DSA_UNLIMITED, &nothing).kind == DSA_ACCEPTED);
	CHECK(dsa_held(device) == 4);
}

/* Memory is refused to a loading at each request in turn, of a device that holds entries. */
static void refused_loading(void)
{
	struct dsa_model from = enabled(100), device = DSA_CLOSED;
	uint8_t bytes[1000];
	int met = 0;
	hold_entries(&from);
	uint64_t size = dsa_save(&from, bytes, sizeof bytes), before = held();
	for (left = 0; dsa_load(&device, bytes, size) == DSA_LOAD_OUT_OF_MEMORY; left = ++met)
		CHECK(held() == before && device.at == NULL && !device.holds && met < 20);
	CHECK(left == 0 && met > 1 && device.holds && held() == 2 * before && before == dsa_size(&small_caps, 100));
	left = -1;
	dsa_close(&device);
	CHECK(dsa_load(&device, bytes, size - 1) == DSA_LOAD_BAD_LENGTH && held() == before);
	bytes[size - 1] ^= 1;
	CHECK(dsa_load(&device, bytes, size) == DSA_LOAD_BAD_CHECKSUM && held() == before);
	dsa_close(&from);
	CHECK(held() == 0);
}

/* Saving takes as much as it writes, once, and gives it back. Where that is refused nothing is written. */
static void refused_saving(void)
{
	struct dsa_model device = enabled(100);
	uint8_t bytes[1000] = { 7 };
	uint64_t size = dsa_saved_size(&device), before = held();
	left = 0;
	CHECK(dsa_save(&device, bytes, sizeof bytes) == DSA_NO_MEMORY && bytes[0] == 7 && held() == before);
	CHECK(dsa_save(&device, bytes, size - 1) == size && dsa_saved_size(&device) == size);
	left = 1;
	asked = 0;
	CHECK(dsa_save(&device, bytes, size) == size && bytes[0] == 'D' && asked == size && held() == before);
	left = -1;
	dsa_close(&device);
	CHECK(held() == 0);
}

/* A second opening takes nothing and gives nothing back, whatever it asks for. */
static void opened_again(void)
{
	struct dsa_model device = DSA_CLOSED;
	const struct dsa_caps none = { 0, 0, 0, 0, 0, 0, 0, 0 };
	CHECK(dsa_open(&device, &small_caps, 10) == DSA_OPENED);
	uint64_t before = held();
	asked = 0;
	CHECK(dsa_open(&device, &small_caps, 20) == DSA_ALREADY_OPEN && dsa_open(&device, &none, 20) == DSA_ALREADY_OPEN);
	CHECK(asked == 0 && held() == before);
	dsa_close(&device);
	CHECK(held() == 0);
}

/* Closes a device that holds entries, with a command that is active, or aborted them, or reset the device, where a word is given. */
static void closed_while_held(uint32_t word, uint32_t kind)
{
	struct dsa_model device = enabled(100);
	uint64_t before = held();
	asked = 0;
	hold_entries(&device);
	if (word != 0)
		CHECK(dsa_command(&device, word).kind == kind);
	CHECK(dsa_held(&device) == (kind == DSA_ENDED ? 0 : 4));
	CHECK(asked == 0 && held() == before && before == dsa_size(&small_caps, 100));
	dsa_close(&device);
	CHECK(held() == 0 && dsa_held(&device) == DSA_NONE);
}

/* Closes a device that holds this many entries, all in one queue. */
static void closed_with(uint32_t count)
{
	const struct dsa_caps caps = { 1, 1, 1, 4096, 255, 16, 10, 31 };
	const struct dsa_queue queue = { 4096, 4096, 0, 1, 10, 31, 0 };
	const struct dsa_group group = { 1, 1, 0, 255 };
	struct dsa_descriptor nothing = descriptor_of(0x00, 0, 0);
	struct dsa_model device = DSA_CLOSED;
	CHECK(dsa_open(&device, &caps, 10000) == DSA_OPENED);
	CHECK(dsa_write_queue(&device, 0, &queue).kind == DSA_WRITTEN && dsa_write_group(&device, 0, &group).kind == DSA_WRITTEN);
	CHECK(dsa_command(&device, DSA_COMMAND(DSA_ENABLE_DEVICE, 0)).kind == DSA_ENDED);
	CHECK(dsa_command(&device, DSA_COMMAND(DSA_ENABLE_WQ, 0)).kind == DSA_ENDED);
	for (uint32_t i = 0; i < count; i++)
		CHECK(dsa_enqcmd(&device, 0, 0, DSA_LIMITED, 5, &nothing).kind == DSA_ACCEPTED);
	CHECK(dsa_held(&device) == count);
	dsa_close(&device);
	CHECK(held() == 0);
}

/* A history that is full keeps what it took, and gives it back. */
static void closed_when_full(void)
{
	struct dsa_model device = enabled(10);
	struct dsa_descriptor nothing = descriptor_of(0x00, 0, 0);
	asked = 0;
	while (dsa_history_is_full(&device) == 0)
		dsa_enqcmd(&device, 0, 0, DSA_UNLIMITED, 5, &nothing);
	CHECK(dsa_enqcmd(&device, 0, 0, DSA_UNLIMITED, 5, &nothing).kind == DSA_FULL && asked == 0);
	dsa_close(&device);
	CHECK(held() == 0);
}

/* Closes a device that has given as many names as its history allows, by default the longest one, and holds none of these entries. */
static void closed_after_many_names(uint64_t capacity)
{
	struct dsa_model device = enabled(capacity);
	struct dsa_descriptor nothing = descriptor_of(0x00, 0, 0);
	while (dsa_history_is_full(&device) == 0)
		if (dsa_enqcmd(&device, 0, 0, DSA_UNLIMITED, 5, &nothing).kind == DSA_RETRY)
			dsa_command(&device, DSA_COMMAND(DSA_ABORT_ALL, 0));
	CHECK(dsa_next_name(&device) > capacity / 4 * 3);
	dsa_close(&device);
	CHECK(held() == 0);
}

/* Closing one device leaves the other's memory, and the handle may be opened again, as often as one likes. */
static void one_of_two(void)
{
	struct dsa_model one = enabled(100), other = enabled(200);
	hold_entries(&other);
	uint64_t of_one = dsa_size(&small_caps, 100), of_other = dsa_size(&small_caps, 200);
	for (int i = 0; i < 1000; i++) {
		CHECK(held() == of_one + of_other);
		dsa_close(&one);
		CHECK(held() == of_other && dsa_held(&other) == 4);
		CHECK(dsa_open(&one, &small_caps, 100) == DSA_OPENED);
	}
	dsa_close(&other);
	CHECK(held() == of_one);
	dsa_close(&one);
	CHECK(held() == 0);
}

int main(int count, char **words)
{
	const struct dsa_caps greatest = { 64, 8, 64, 4096, 255, 16, 10, 31 };
	sizes();
	lengths();
	refused(&small_caps);
	refused(&greatest);
	refused_loading();
	refused_saving();
	opened_again();
	closed_while_held(0, DSA_WRITTEN);
	closed_while_held(DSA_COMMAND(DSA_DRAIN_ALL, 0), DSA_ACTIVE);
	closed_while_held(DSA_COMMAND(DSA_DISABLE_WQ, 3), DSA_ACTIVE);
	closed_while_held(DSA_COMMAND(DSA_ABORT_ALL, 0), DSA_ENDED);
	closed_while_held(DSA_COMMAND(DSA_RESET_DEVICE, 0), DSA_ENDED);
	for (uint32_t count = 1; count <= 4096; count *= 2)
		closed_with(count);
	closed_when_full();
	closed_after_many_names(count > 1 ? strtoul(words[1], NULL, 10) : 1048576);
	one_of_two();
	return 0;
}
