/* A device is saved to a file, loaded again, and goes on. */
#include <stdio.h>
#include <stdlib.h>
#include "dsa_model.h"

/* Writes the bytes of the device, and whether it did. */
static int save(const struct dsa_model *device, FILE *file)
{
	uint64_t size = dsa_saved_size(device);
	uint8_t *bytes = malloc(size);
	int is_saved = bytes != NULL && dsa_save(device, bytes, size) == size && fwrite(bytes, 1, size, file) == size;

	free(bytes);
	return is_saved;
}

/* Opens the device of the file's bytes. */
static uint32_t load(struct dsa_model *device, FILE *file)
{
	static uint8_t bytes[100000];
	size_t size = fread(bytes, 1, sizeof bytes, file);

	return dsa_load(device, bytes, size);
}

static void show(const char *name, const struct dsa_model *device)
{
	printf("%s: %u steps, %u held, %u in queue 0\n", name, (unsigned)dsa_history_length(device),
	       (unsigned)dsa_held(device), (unsigned)dsa_occupancy(device, 0));
}

int main(void)
{
	struct dsa_caps caps = { 1, 1, 1, 8, 16, 2, 3, 20 };
	struct dsa_queue queue = { 8, 3, 0, 1, 3, 20, 0 };
	struct dsa_group group = { 1, 1, 4, 16 };
	struct dsa_descriptor nothing = { { 0 } };
	struct dsa_model first = DSA_CLOSED, second = DSA_CLOSED;
	FILE *file = tmpfile();

	if (file == NULL || dsa_open(&first, &caps, 1000) != DSA_OPENED)
		return 1;
	dsa_write_queue(&first, 0, &queue);
	dsa_write_group(&first, 0, &group);
	dsa_command(&first, DSA_COMMAND(DSA_ENABLE_DEVICE, 0));
	dsa_command(&first, DSA_COMMAND(DSA_ENABLE_WQ, 0));
	for (unsigned i = 0; i < 3; i++)
		dsa_enqcmd(&first, 0, 0, DSA_UNLIMITED, 5, &nothing);
	struct dsa_answer taken = dsa_dispatch(&first, 0);
	show("saved", &first);
	if (!save(&first, file))
		return 1;
	dsa_close(&first);

	rewind(file);
	printf("%s\n", dsa_load_name(load(&second, file)));
	show("then", &second);
	struct dsa_answer done = dsa_finish(&second, 0, taken.cell, taken.name, DSA_SUCCESS);
	printf("entry %u: %s\n", taken.name, dsa_status_name(done.more));
	show("later", &second);

	printf("a second time: %s\n", dsa_load_name(load(&second, file)));
	dsa_close(&second);
	printf("at the file's end: %s\n", dsa_load_name(load(&second, file)));
	fclose(file);
	return 0;
}
