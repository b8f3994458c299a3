/* 16 clients and 8 engines in threads step one device behind a lock of the program's own, and one thread more begins its history anew
 * whenever it is full, or sooner: by default in a run of 480,000 steps, or of as many as the argument says. Names are given in their
 * order, each once, and each ends once. The totals of all parts balance: of names, of fates, and of stored steps. No model says what
 * each answer has to be. */
#include <pthread.h>
#include <sched.h>
#include "check.h"

#define CLIENTS 16
#define ENGINES 8
#define QUEUES 4
#define MOST_ROOM 10000
#define PARTS 64
#define SET_UP 10

static struct { pthread_mutex_t lock; struct dsa_model handle; } shared = { PTHREAD_MUTEX_INITIALIZER, DSA_CLOSED };

/* How many steps are wanted, and how many a history has room for. */
static uint64_t wanted, room;

/* What the threads counted, all under the lock: entries that were accepted, turned away, taken and ended; those that were aborted, and
 * by how many commands; steps that were stored before the history's own; how many clients submit still, and how often the history
 * began anew. */
static uint64_t accepted, retried, taken, done, aborted, aborts, before;
static int clients = CLIENTS, begun;

/* For each name how often it was given, and how often it ended. */
static uint8_t *given, *ended;

/* Lets go of the lock, so that another thread may take it. */
static void pause_here(void)
{
	pthread_mutex_unlock(&shared.lock);
	sched_yield();
	pthread_mutex_lock(&shared.lock);
}

/* Submits until so many steps were stored. */
static void *submit(void *number)
{
	struct dsa_descriptor nothing = descriptor_of(DSA_OP_NOOP, 0, 0);
	uint16_t client = *(const uint16_t *)number;
	pthread_mutex_lock(&shared.lock);
	while (before + dsa_history_length(&shared.handle) < wanted) {
		struct dsa_answer answer = dsa_enqcmd(&shared.handle, client, client % QUEUES, DSA_UNLIMITED, 5, &nothing);
		CHECK(answer.kind == DSA_ACCEPTED || answer.kind == DSA_RETRY || answer.kind == DSA_FULL);
		if (answer.kind == DSA_ACCEPTED) {
			CHECK(answer.name == accepted && given[answer.name]++ == 0);
			accepted++;
		}
		retried += answer.kind == DSA_RETRY;
		pause_here();
	}
	clients--;
	pthread_mutex_unlock(&shared.lock);
	return NULL;
}

/* Ends what it takes, until no more comes. A history may begin anew while the entry runs. An abort may have it gone. */
static void *work(void *number)
{
	uint16_t engine = *(const uint16_t *)number;
	pthread_mutex_lock(&shared.lock);
	while (clients > 0 || dsa_held(&shared.handle) > 0) {
		struct dsa_answer entry = dsa_dispatch(&shared.handle, engine);
		CHECK(entry.kind == DSA_TAKEN || entry.kind == DSA_IDLE || entry.kind == DSA_FULL);
		taken += entry.kind == DSA_TAKEN;
		pause_here();
		while (entry.kind == DSA_TAKEN) {
			struct dsa_answer end = dsa_finish(&shared.handle, engine, entry.cell, entry.name, DSA_SUCCESS);
			CHECK(end.kind == DSA_DONE || end.kind == DSA_GONE || end.kind == DSA_FULL);
			done += end.kind == DSA_DONE;
			entry.kind = end.kind == DSA_FULL ? entry.kind : DSA_IDLE;
			pause_here();
		}
	}
	pthread_mutex_unlock(&shared.lock);
	return NULL;
}

/* Reads the fates from this position on: each is of an entry that was given and had not ended. All steps are stored or were. */
static void tell_fates(uint64_t from)
{
	for (uint64_t i = from; i < dsa_fates_length(&shared.handle); i++) {
		uint32_t name = dsa_fate_at(&shared.handle, i).name;
		CHECK(name < accepted && given[name] == 1 && ended[name]++ == 0);
	}
	CHECK(dsa_next_name(&shared.handle) == accepted && accepted == done + aborted + dsa_held(&shared.handle));
	CHECK(before + dsa_history_length(&shared.handle) == SET_UP + accepted + retried + taken + done + aborts);
}

static void begin_anew(uint32_t keep_fates, uint64_t kept)
{
	before += dsa_history_length(&shared.handle);
	CHECK(dsa_begin_anew(&shared.handle, keep_fates) == DSA_ANEW_BEGUN && dsa_is_anew(&shared.handle) == 1);
	CHECK(dsa_fates_length(&shared.handle) == kept && dsa_history_length(&shared.handle) == 0);
	CHECK(dsa_room(&shared.handle) == room && dsa_capacity(&shared.handle) == room);
	begun++;
}

static void abort_all(void)
{
	struct dsa_answer answer = dsa_command(&shared.handle, DSA_COMMAND(DSA_ABORT_ALL, 0));
	CHECK(answer.kind == DSA_ENDED && dsa_held(&shared.handle) == 0);
	aborted += answer.more;
	aborts++;
}

/* Aborts what is held at each tenth beginning, and keeps the fates at each third. A full history may hold entries still. */
static void *begin(void *unused)
{
	uint64_t from = 0;
	pthread_mutex_lock(&shared.lock);
	while (clients > 0 || dsa_held(&shared.handle) > 0) {
		bool keep_fates = begun % 3 == 0, is_early = begun % 5 == 0 && dsa_history_length(&shared.handle) > room / 2;
		if (is_early || dsa_history_is_full(&shared.handle) == 1) {
			tell_fates(from);
			from = keep_fates ? dsa_fates_length(&shared.handle) : 0;
			begin_anew(keep_fates, from);
			if (begun % 10 == 0)
				abort_all();
		}
		pause_here();
	}
	tell_fates(from);
	pthread_mutex_unlock(&shared.lock);
	return unused;
}

static void open_device(void)
{
	const struct dsa_caps caps = { QUEUES, 1, ENGINES, 64, 16, 2, 3, 20 };
	const struct dsa_queue queue = { 16, 16, 0, 1, 3, 20, 0 };
	const struct dsa_group group = { 15, 255, 4, 16 };
	CHECK(dsa_open(&shared.handle, &caps, room) == DSA_OPENED
		&& dsa_write_group(&shared.handle, 0, &group).kind == DSA_WRITTEN);
	for (uint16_t i = 0; i < QUEUES; i++)
		CHECK(dsa_write_queue(&shared.handle, i, &queue).kind == DSA_WRITTEN);
	CHECK(dsa_command(&shared.handle, DSA_COMMAND(DSA_ENABLE_DEVICE, 0)).kind == DSA_ENDED);
	for (uint16_t i = 0; i < QUEUES; i++)
		CHECK(dsa_command(&shared.handle, DSA_COMMAND(DSA_ENABLE_WQ, i)).kind == DSA_ENDED);
}

int main(int count, char **words)
{
	pthread_t thread[CLIENTS + ENGINES + 1];
	uint16_t number[CLIENTS + ENGINES];
	wanted = count > 1 ? strtoul(words[1], NULL, 10) : 480000;
	room = wanted / PARTS < MOST_ROOM ? wanted / PARTS : MOST_ROOM;
	CHECK((given = calloc(wanted, 1)) != NULL && (ended = calloc(wanted, 1)) != NULL);
	open_device();
	CHECK(pthread_create(&thread[0], NULL, begin, NULL) == 0);
	for (int i = 0; i < CLIENTS + ENGINES; i++) {
		number[i] = (uint16_t)(i < CLIENTS ? i : i - CLIENTS);
		CHECK(pthread_create(&thread[1 + i], NULL, i < CLIENTS ? submit : work, &number[i]) == 0);
	}
	for (int i = 0; i <= CLIENTS + ENGINES; i++)
		CHECK(pthread_join(thread[i], NULL) == 0);
	CHECK(before + dsa_history_length(&shared.handle) >= wanted && begun >= 60);
	CHECK(dsa_held(&shared.handle) == 0 && accepted == done + aborted && aborts > 5 && accepted > wanted / 20);
	for (uint64_t name = 0; name < accepted; name++)
		CHECK(given[name] == 1 && ended[name] == 1);
	free(given);
	free(ended);
	dsa_close(&shared.handle);
	return 0;
}
