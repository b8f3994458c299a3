/* Two threads step one device behind a lock of the program's own: what they counted is what the device has. */
#include <pthread.h>
#include "check.h"

struct locked { pthread_mutex_t lock; struct dsa_model handle; };

/* How often each thread tries. */
static int tries = 100000;

static struct locked shared = { PTHREAD_MUTEX_INITIALIZER, DSA_CLOSED };

static void *submit(void *taken)
{
	struct dsa_descriptor nothing = descriptor_of(0x00, 0, 0);
	uint64_t *accepted = taken;
	for (int i = 0; i < tries; i++) {
		pthread_mutex_lock(&shared.lock);
		*accepted += dsa_enqcmd(&shared.handle, 0, 0, DSA_LIMITED, 5, &nothing).kind == DSA_ACCEPTED;
		pthread_mutex_unlock(&shared.lock);
	}
	return NULL;
}

static void *work(void *ended)
{
	uint64_t *done = ended;
	for (int i = 0; i < tries; i++) {
		pthread_mutex_lock(&shared.lock);
		struct dsa_answer taken = dsa_dispatch(&shared.handle, 0);
		if (taken.kind == DSA_TAKEN) {
			CHECK(dsa_finish(&shared.handle, 0, taken.cell, taken.name, DSA_SUCCESS).kind == DSA_DONE);
			*done += 1;
		}
		pthread_mutex_unlock(&shared.lock);
	}
	return NULL;
}

int main(int count, char **words)
{
	if (count > 1)
		tries = atoi(words[1]);
	pthread_t client, engine;
	uint64_t accepted = 0, done = 0;
	shared.handle = enabled(1000000);
	CHECK(pthread_create(&client, NULL, submit, &accepted) == 0 && pthread_create(&engine, NULL, work, &done) == 0);
	CHECK(pthread_join(client, NULL) == 0 && pthread_join(engine, NULL) == 0);
	CHECK(dsa_fates_length(&shared.handle) == done && accepted == done + dsa_held(&shared.handle));
	CHECK(dsa_next_name(&shared.handle) == accepted);
	dsa_close(&shared.handle);
	return 0;
}
