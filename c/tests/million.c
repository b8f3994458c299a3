/* A million rounds of submit, dispatch and finish, on as many devices as their histories ask for. */
#include "check.h"

int main(int count, char **words)
{
	unsigned long rounds = count > 1 ? strtoul(words[1], NULL, 10) : 1000000, done = 0;
	struct dsa_descriptor move = descriptor_of(0x03, 0, 4096);
	while (done < rounds) {
		struct dsa_model device = enabled(1048576);
		for (; done < rounds; done++) {
			struct dsa_answer accepted = dsa_enqcmd(&device, 0, 0, DSA_LIMITED, 5, &move);
			if (accepted.kind == DSA_FULL)
				break;
			struct dsa_answer taken = dsa_dispatch(&device, 0);
			if (taken.kind == DSA_FULL)
				break;
			struct dsa_answer finished = dsa_finish(&device, 0, taken.cell, taken.name, DSA_SUCCESS);
			if (finished.kind == DSA_FULL)
				break;
			CHECK(accepted.kind == DSA_ACCEPTED && taken.name == accepted.name && finished.kind == DSA_DONE && finished.more == 1);
		}
		dsa_close(&device);
	}
	return 0;
}
