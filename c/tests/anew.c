/* One device begins its history anew again and again, by default in a run of 2,000,000 steps, or of as many as the argument says. Each
 * answer is that of a plain model beside it, and the totals over all parts balance: each name ended once or is held. The linker
 * sends the library's calls of malloc, realloc and free here. */
#include "check.h"

#define PARTS 64
#define LIMIT 3
#define SIZE 8
#define SLOTS 2
#define MEMBERS 3
#define FENCE 1
#define ODD 0x99

void *__real_malloc(size_t size);
void *__wrap_malloc(size_t size);
void *__real_realloc(void *block, size_t size);
void *__wrap_realloc(void *block, size_t size);
void __real_free(void *block);
void __wrap_free(void *block);

/* How many blocks are held, and how many requests are still met, all where that is below 0. */
static int blocks, left = -1;

static bool is_refused(void)
{
	bool is = left == 0;
	left -= left > 0;
	return is;
}

void *__wrap_malloc(size_t size)
{
	if (is_refused())
		return NULL;
	blocks++;
	return __real_malloc(size);
}

void *__wrap_realloc(void *block, size_t size)
{
	if (is_refused())
		return NULL;
	blocks += block == NULL;
	return __real_realloc(block, size);
}

void __wrap_free(void *block)
{
	blocks -= block != NULL;
	__real_free(block);
}

/* ---- the plain model: one queue, one engine, No-ops and batches of No-ops ---- */

/* An entry, and of a member whether it runs, is fenced, and has an operation that is none. */
struct entry { uint32_t name, cell; bool is_batch, runs, is_fenced, is_odd; };

/* What is held; how many members were fetched, whether one failed, and whether the rest was abandoned; and the name at which the
 * active drain came. */
static struct {
	struct entry queue[SIZE], taken[SLOTS], member[MEMBERS];
	uint32_t waiting, in_progress, members, fetched, mark;
	bool has_batch, has_failed, is_closed, drains;
} plain;

/* How many names were given, how many of them ended in each of three ways, and how many steps a history stores. */
static uint64_t names, ended[4], stored;

static uint64_t state = 20261130;

/* A number below the count, of a generator by Marsaglia (xorshift64). */
static uint32_t below(uint32_t count)
{
	state ^= state << 13;
	state ^= state >> 7;
	state ^= state << 17;
	return (uint32_t)(state >> 32) % count;
}

static uint32_t held(void)
{
	return plain.waiting + plain.in_progress + plain.members;
}

/* Takes an entry out of a list, and keeps the order of the others. */
static struct entry out_of(struct entry *list, uint32_t *count, uint32_t place)
{
	struct entry entry = list[place];
	*count -= 1;
	for (uint32_t i = place; i < *count; i++)
		list[i] = list[i + 1];
	return entry;
}

/* How many entries the drain waits for. */
static uint32_t awaited(void)
{
	uint32_t count = 0;
	for (uint32_t i = 0; i < plain.waiting; i++)
		count += plain.queue[i].name < plain.mark;
	for (uint32_t i = 0; i < plain.in_progress; i++)
		count += plain.taken[i].name < plain.mark;
	return count;
}

/* The answer is of that kind, with that number beside an entry. */
static void is(struct dsa_answer answer, uint32_t kind, uint32_t more)
{
	CHECK(answer.kind == kind && answer.more == more);
}

/* The answer names that entry. */
static void is_of(struct dsa_answer answer, uint32_t kind, const struct entry *entry)
{
	is(answer, kind, 0);
	CHECK(answer.name == entry->name && answer.cell == entry->cell);
	stored++;
}

static void submit(struct dsa_model *device)
{
	static const uint32_t most[] = { [DSA_LIMITED] = LIMIT, [DSA_UNLIMITED] = SIZE };
	bool is_batch = below(4) == 0;
	uint32_t portal = below(2);
	struct dsa_descriptor descriptor = descriptor_of(is_batch ? DSA_OP_BATCH : DSA_OP_NOOP, 0, MEMBERS);
	struct dsa_answer answer = dsa_enqcmd(device, 0, 0, portal, 5, &descriptor);
	if (plain.waiting >= most[portal]) {
		is(answer, DSA_RETRY, DSA_AT_LIMIT);
		stored++;
		return;
	}
	struct entry entry = { .name = (uint32_t)names++, .cell = answer.cell, .is_batch = is_batch };
	is_of(answer, DSA_ACCEPTED, &entry);
	plain.queue[plain.waiting++] = entry;
}

static void dispatch(struct dsa_model *device)
{
	struct dsa_answer answer = dsa_dispatch(device, 0);
	if (plain.waiting == 0 || plain.in_progress == SLOTS || (plain.has_batch && plain.queue[0].is_batch)) {
		is(answer, DSA_IDLE, 0);
		return;
	}
	struct entry entry = out_of(plain.queue, &plain.waiting, 0);
	is_of(answer, DSA_TAKEN, &entry);
	plain.taken[plain.in_progress++] = entry;
	if (entry.is_batch) {
		plain.has_batch = true;
		plain.has_failed = plain.is_closed = false;
		plain.fetched = 0;
	}
}

static void fetch(struct dsa_model *device)
{
	bool is_fenced = below(4) == 0, is_odd = below(8) == 0;
	struct dsa_descriptor descriptor = descriptor_of(is_odd ? ODD : DSA_OP_NOOP, is_fenced ? FENCE : 0, 0);
	struct dsa_answer answer = dsa_fetch(device, 0, &descriptor);
	if (!plain.has_batch || plain.is_closed || plain.fetched == MEMBERS) {
		is(answer, plain.has_batch ? DSA_ALL_FETCHED : DSA_NO_BATCH, 0);
		return;
	}
	struct entry entry = { .name = (uint32_t)names++, .cell = answer.cell, .is_fenced = is_fenced, .is_odd = is_odd };
	is_of(answer, DSA_FETCHED, &entry);
	plain.member[plain.members++] = entry;
	plain.fetched++;
}

static void start(struct dsa_model *device)
{
	struct dsa_answer answer = dsa_start(device, 0);
	uint32_t place = 0;
	while (place < plain.members && plain.member[place].runs)
		place++;
	struct entry *entry = &plain.member[place];
	if (place == plain.members) {
		is(answer, DSA_NOTHING, 0);
	} else if (entry->is_fenced && place > 0) {
		is(answer, DSA_FENCE_WAIT, 0);
	} else if (entry->is_fenced && plain.has_failed) {
		is(answer, DSA_ABANDONED, plain.members);
		stored++;
		ended[DSA_BEHIND_FENCE] += plain.members;
		plain.members = 0;
		plain.is_closed = true;
	} else {
		is_of(answer, DSA_STARTED, entry);
		entry->runs = true;
	}
}

/* The status of an entry that may end, 0 of one that may not yet. */
static uint32_t status_of(const struct entry *entry)
{
	bool is_fetched = plain.is_closed || plain.fetched == MEMBERS;
	if (!entry->is_batch)
		return entry->is_odd ? DSA_STATUS_BAD_OPCODE : DSA_STATUS_SUCCESS;
	if (plain.members > 0 || !is_fetched)
		return 0;
	return plain.has_failed ? DSA_STATUS_BATCH_FAIL : DSA_STATUS_SUCCESS;
}

/* One in progress, or a member that runs, where there is one there. */
static void finish(struct dsa_model *device)
{
	uint32_t place = below(SLOTS + MEMBERS);
	bool is_member = place >= SLOTS;
	place -= is_member ? SLOTS : 0;
	struct entry *list = is_member ? plain.member : plain.taken;
	uint32_t *count = is_member ? &plain.members : &plain.in_progress;
	if (place >= *count || (is_member && !list[place].runs))
		return;
	uint32_t status = status_of(&list[place]);
	struct dsa_answer answer = dsa_finish(device, 0, list[place].cell, list[place].name, DSA_SUCCESS);
	if (status == 0) {
		is(answer, DSA_NOT_READY, 0);
		return;
	}
	is(answer, DSA_DONE, status);
	stored++;
	ended[DSA_COMPLETED]++;
	struct entry entry = out_of(list, count, place);
	plain.has_batch = plain.has_batch && !entry.is_batch;
	plain.has_failed = plain.has_failed || (is_member && status != DSA_STATUS_SUCCESS);
}

static void drain(struct dsa_model *device)
{
	struct dsa_answer answer = dsa_command(device, DSA_COMMAND(DSA_DRAIN_ALL, 0));
	if (plain.drains) {
		is(answer, DSA_REFUSED, DSA_FAULT_BUSY);
		return;
	}
	stored++;
	plain.drains = plain.waiting + plain.in_progress > 0;
	plain.mark = (uint32_t)names;
	is(answer, plain.drains ? DSA_ACTIVE : DSA_ENDED, 0);
}

static void abort_all(struct dsa_model *device)
{
	struct dsa_answer answer = dsa_command(device, DSA_COMMAND(DSA_ABORT_ALL, 0));
	if (plain.drains) {
		is(answer, DSA_REFUSED, DSA_FAULT_BUSY);
		return;
	}
	is(answer, DSA_ENDED, held());
	stored++;
	ended[DSA_ABORTED] += held();
	plain.waiting = plain.in_progress = plain.members = 0;
	plain.has_batch = false;
}

static void poll(struct dsa_model *device)
{
	struct dsa_answer answer = dsa_poll(device);
	if (!plain.drains || awaited() > 0) {
		is(answer, plain.drains ? DSA_ACTIVE : DSA_NOTHING, 0);
		return;
	}
	is(answer, DSA_FINISHED, 0);
	stored++;
	plain.drains = false;
}

/* Seldom a command: a drain waits for long. */
static void any_step(struct dsa_model *device)
{
	static void (*const often[])(struct dsa_model *) = { submit, submit, dispatch, dispatch,
		fetch, start, start, finish, finish, finish, finish };
	static void (*const seldom[])(struct dsa_model *) = { drain, poll, poll, abort_all };
	if (below(64) == 0)
		seldom[below(4)](device);
	else
		often[below(11)](device);
}

/* ---- what the device says of itself beside ---- */

/* All that is no history and no fate is what the plain model has. */
static void agree(const struct dsa_model *device)
{
	CHECK(dsa_occupancy(device, 0) == plain.waiting && dsa_in_progress(device, 0) == plain.in_progress);
	CHECK(dsa_members(device, 0) == plain.members && dsa_held(device) == held() && dsa_next_name(device) == names);
	CHECK(dsa_active(device) == (plain.drains ? DSA_DRAIN_ALL : DSA_NO_NUMBER));
	CHECK(dsa_awaited(device) == (plain.drains ? awaited() : DSA_NONE));
	CHECK(dsa_phase(device) == DSA_ON && dsa_queue_phase(device, 0) == DSA_ON
		&& dsa_noted(device).kind == DSA_NOTHING);
	struct dsa_batch batch;
	CHECK(dsa_batch(device, 0, &batch) == plain.has_batch);
	CHECK(!plain.has_batch || (batch.fetched == plain.fetched
		&& batch.failed == plain.has_failed && batch.closed == plain.is_closed));
	for (uint32_t i = 0; i < plain.in_progress; i++)
		CHECK(dsa_holds(device, plain.taken[i].cell, plain.taken[i].name) == 1);
	for (uint32_t i = 0; i < plain.members; i++)
		CHECK(dsa_holds(device, plain.member[i].cell, plain.member[i].name) == 1);
}

/* A mark for each name that ended, and how many ended in each way. */
static uint8_t *is_ended;
static uint64_t told[4];

/* Reads the fates from this position on: none of their names ended before. */
static void tell_fates(const struct dsa_model *device, uint64_t from)
{
	for (uint64_t i = from; i < dsa_fates_length(device); i++) {
		struct dsa_ending ending = dsa_fate_at(device, i);
		CHECK(ending.kind != DSA_NOT_ENDED && ending.name < names && !is_ended[ending.name]);
		is_ended[ending.name] = 1;
		told[ending.kind]++;
	}
	for (int kind = DSA_COMPLETED; kind <= DSA_BEHIND_FENCE; kind++)
		CHECK(told[kind] == ended[kind]);
	CHECK(names == ended[DSA_COMPLETED] + ended[DSA_ABORTED] + ended[DSA_BEHIND_FENCE] + held());
}

/* Three times of four the fates are forgotten. The first of a part that is not told yet stands where those that are kept end. */
static uint64_t begin(struct dsa_model *device, int part, uint64_t room)
{
	bool keep_fates = part % 4 == 0;
	uint64_t fates = dsa_fates_length(device);
	CHECK(dsa_begin_anew(device, keep_fates) == DSA_ANEW_BEGUN && dsa_is_anew(device) == 1);
	CHECK(dsa_history_length(device) == 0 && dsa_history_answer(device, 0).kind == DSA_NOTHING);
	CHECK(dsa_room(device) == room && dsa_capacity(device) == room);
	CHECK(dsa_fates_length(device) == (keep_fates ? fates : 0));
	agree(device);
	return keep_fates ? fates : 0;
}

static void soak(uint64_t steps)
{
	uint64_t room = steps / PARTS, made = 0, from = 0;
	int while_held = 0, while_drained = 0, part = 0;
	struct dsa_model device = enabled(room);
	CHECK((is_ended = malloc(steps)) != NULL && dsa_is_anew(&device) == 0);
	memset(is_ended, 0, steps);
	stored = 6;
	for (; made < steps; part++) {
		while (stored < room)
			any_step(&device);
		CHECK(dsa_history_is_full(&device) == 1 && dsa_poll(&device).kind == DSA_FULL);
		agree(&device);
		tell_fates(&device, from);
		while_held += held() > 0;
		while_drained += plain.drains;
		made += stored;
		from = begin(&device, part, room);
		stored = 0;
	}
	CHECK(part >= 60 && while_held > 30 && while_drained > 3);
	for (uint64_t name = 0, open = 0; name < names; name++)
		CHECK((open += !is_ended[name]) <= held());
	free(is_ended);
	dsa_close(&device);
}

/* ---- shorter courses ---- */

/* A device with a batch that runs and one member that ended, whose drain waits. */
static struct dsa_model drained(uint64_t capacity, struct dsa_answer *taken)
{
	struct dsa_descriptor batch = descriptor_of(DSA_OP_BATCH, 0, 2), nothing = descriptor_of(DSA_OP_NOOP, 0, 0);
	struct dsa_model device = enabled(capacity);
	CHECK(dsa_enqcmd(&device, 0, 0, DSA_LIMITED, 5, &batch).kind == DSA_ACCEPTED);
	*taken = dsa_dispatch(&device, 0);
	CHECK(dsa_fetch(&device, 0, &nothing).kind == DSA_FETCHED);
	struct dsa_answer member = dsa_start(&device, 0);
	CHECK(dsa_finish(&device, 0, member.cell, member.name, DSA_SUCCESS).kind == DSA_DONE);
	CHECK(dsa_command(&device, DSA_COMMAND(DSA_DRAIN_ALL, 0)).kind == DSA_ACTIVE);
	return device;
}

/* Its batch ends, and then its drain, though the history has neither's beginning. */
static void goes_on(struct dsa_model *device, struct dsa_answer taken, uint64_t fates)
{
	struct dsa_descriptor nothing = descriptor_of(DSA_OP_NOOP, 0, 0);
	struct dsa_event event;
	CHECK(dsa_fates_length(device) == fates && dsa_fate_of(device, 1).kind == (fates ? DSA_COMPLETED : DSA_NOT_ENDED));
	CHECK(dsa_poll(device).kind == DSA_ACTIVE && dsa_awaited(device) == 1 && dsa_history_length(device) == 0);
	CHECK(dsa_fetch(device, 0, &nothing).name == 2);
	CHECK(dsa_history_event(device, 0, &event) == 1 && event.kind == DSA_EVENT_FETCH);
	struct dsa_answer member = dsa_start(device, 0);
	CHECK(dsa_finish(device, 0, member.cell, member.name, DSA_SUCCESS).kind == DSA_DONE);
	CHECK(dsa_finish(device, 0, taken.cell, taken.name, DSA_SUCCESS).more == DSA_STATUS_SUCCESS);
	CHECK(dsa_poll(device).kind == DSA_FINISHED && dsa_history_length(device) == 5);
	CHECK(dsa_fate_of(device, 0).kind == DSA_COMPLETED && dsa_fate_at(device, fates).name == 2);
	CHECK(dsa_fates_length(device) == fates + 2 && dsa_held(device) == 0);
}

/* Full or not, with the fates kept or forgotten. Any number but 0 keeps them. */
static void while_a_drain_waits(void)
{
	static const uint32_t keep_fates[] = { 0, 1, 2, UINT32_MAX };
	static const uint64_t capacities[] = { 12, 1000 };
	for (int i = 0; i < 8; i++) {
		struct dsa_answer taken;
		struct dsa_model device = drained(capacities[i / 4], &taken);
		CHECK(dsa_history_is_full(&device) == (i < 4) && dsa_is_anew(&device) == 0);
		CHECK(dsa_begin_anew(&device, keep_fates[i % 4]) == DSA_ANEW_BEGUN && dsa_is_anew(&device) == 1);
		CHECK(dsa_history_is_full(&device) == 0);
		goes_on(&device, taken, i % 4 == 0 ? 0 : 1);
		dsa_close(&device);
		CHECK(dsa_is_anew(&device) == 0);
	}
}

/* Memory is refused at each request in turn: the history, the fates and the drain are as they were. */
static void refused(uint32_t keep_fates)
{
	struct dsa_answer taken;
	struct dsa_model device = drained(12, &taken);
	int before = blocks, met = 0;
	for (left = 0; dsa_begin_anew(&device, keep_fates) == DSA_ANEW_NO_MEMORY; left = ++met) {
		CHECK(left == 0 && met < 20 && blocks == before && dsa_is_anew(&device) == 0);
		CHECK(dsa_history_length(&device) == 12 && dsa_history_is_full(&device) == 1 && dsa_capacity(&device) == 12);
		CHECK(dsa_history_answer(&device, 11).kind == DSA_ACTIVE && dsa_fate_of(&device, 1).kind == DSA_COMPLETED);
		CHECK(dsa_poll(&device).kind == DSA_FULL && dsa_fates_length(&device) == 1 && dsa_awaited(&device) == 1);
	}
	left = -1;
	CHECK(met > 0 && blocks == before);
	goes_on(&device, taken, keep_fates);
	dsa_close(&device);
	CHECK(blocks == 0);
}

/* A closed handle stays one, and a history of no steps stays full. */
static void without_a_history(void)
{
	struct dsa_model device = DSA_CLOSED;
	for (uint32_t keep_fates = 0; keep_fates < 2; keep_fates++)
		CHECK(dsa_begin_anew(&device, keep_fates) == DSA_ANEW_NO_DEVICE && dsa_held(&device) == DSA_NONE);
	CHECK(dsa_is_anew(&device) == 0 && dsa_room(&device) == DSA_NONE && device.at == NULL && !device.holds);
	CHECK(dsa_open(&device, &small_caps, 0) == DSA_OPENED && dsa_room(&device) == 0);
	CHECK(dsa_begin_anew(&device, 1) == DSA_ANEW_BEGUN && dsa_is_anew(&device) == 1);
	CHECK(dsa_room(&device) == 0 && dsa_history_is_full(&device) == 1 && dsa_poll(&device).kind == DSA_FULL);
	dsa_close(&device);
}

int main(int count, char **words)
{
	while_a_drain_waits();
	refused(0);
	refused(1);
	without_a_history();
	soak(count > 1 ? strtoul(words[1], NULL, 10) : 2000000);
	CHECK(blocks == 0);
	return 0;
}
