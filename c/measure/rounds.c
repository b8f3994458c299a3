/* As many rounds of submit, dispatch and finish as the word says, on one device, for measuring: docs/PERFORMANCE.md. */
#include <stdio.h>
#include <stdlib.h>
#include "dsa_model.h"

int main(int count, char **words)
{
	static const struct dsa_caps caps = { 1, 1, 1, 16, 32, 4, 3, 20 };
	static const struct dsa_queue queue = { 16, 8, 0, 1, 3, 20, 0 };
	static const struct dsa_group group = { 1, 1, 0, 32 };
	struct dsa_descriptor move = { { [4] = 0, [7] = 0x03, [33] = 0x10 } };
	unsigned long rounds = count > 1 ? strtoul(words[1], NULL, 10) : 0, done = 0;
	struct dsa_model device = DSA_CLOSED;

	if (dsa_open(&device, &caps, 3 * (uint64_t)rounds + 4) != DSA_OPENED)
		return 1;
	dsa_write_queue(&device, 0, &queue);
	dsa_write_group(&device, 0, &group);
	dsa_command(&device, 0x00100000); /* Enable Device */
	dsa_command(&device, 0x00600000); /* Enable WQ, queue 0 */
	for (unsigned long i = 0; i < rounds; i++) {
		dsa_enqcmd(&device, 0, 0, DSA_LIMITED, 5, &move);
		struct dsa_answer taken = dsa_dispatch(&device, 0);
		if (taken.kind == DSA_TAKEN && dsa_finish(&device, 0, taken.cell, taken.name, DSA_SUCCESS).kind == DSA_DONE)
			done++;
	}
	dsa_close(&device);
	printf("%lu\n", done);
	return 0;
}
