/* What dsa_why says of an event is what dsa_step then answers it for, and dsa_awaited_names has the names that a command waits for.
 * python/test_dsa_model.py compares the texts with those of the program. An argument is the number of random runs. The linker sends
 * the library's calls of malloc, realloc and free here. */
#include "check.h"

#define ROOM 4096
#define RUNS 200
#define MOST_STEPS 150
#define TICKETS 4

void *__real_malloc(size_t size);
void *__wrap_malloc(size_t size);
void *__real_realloc(void *block, size_t size);
void *__wrap_realloc(void *block, size_t size);
void __real_free(void *block);
void __wrap_free(void *block);

/* How many blocks are held, and how many requests are still met, all where that is below 0. */
static int blocks, left = -1;

static bool is_refused(void)
{
	bool is = left == 0;
	left -= left > 0;
	return is;
}

void *__wrap_malloc(size_t size)
{
	if (is_refused())
		return NULL;
	blocks++;
	return __real_malloc(size);
}

void *__wrap_realloc(void *block, size_t size)
{
	if (is_refused())
		return NULL;
	blocks += block == NULL;
	return __real_realloc(block, size);
}

void __wrap_free(void *block)
{
	blocks -= block != NULL;
	__real_free(block);
}

/* The text and a zero, as far as there is room for that many bytes, and nothing behind them. */
static void says_in(const struct dsa_model *device, const struct dsa_event *event, const char *text, size_t size)
{
	char buffer[ROOM];
	size_t length = strlen(text), shown = size == 0 ? 0 : length < size ? length : size - 1;
	memset(buffer, 'x', sizeof buffer);
	CHECK(length + 2 < ROOM && dsa_why(device, event, buffer, size) == length);
	CHECK(memcmp(buffer, text, shown) == 0 && (size == 0 || buffer[shown] == 0));
	for (size_t i = size == 0 ? 0 : shown + 1; i < sizeof buffer; i++)
		CHECK(buffer[i] == 'x');
}

/* In each number of bytes up to two more than it takes. */
static void says(const struct dsa_model *device, struct dsa_event event, const char *text)
{
	uint64_t stored = dsa_history_length(device);
	for (size_t size = 0; size <= strlen(text) + 2; size++)
		says_in(device, &event, text, size);
	CHECK(dsa_history_length(device) == stored);
}

static void says_nothing(const struct dsa_model *device, struct dsa_event event, uint64_t number)
{
	char buffer[2] = "x";
	CHECK(dsa_why(device, &event, buffer, sizeof buffer) == number && buffer[0] == 0 && buffer[1] == 0);
	buffer[0] = 'x';
	CHECK(dsa_why(device, &event, buffer, 0) == number && buffer[0] == 'x');
}

static struct dsa_event of(uint32_t kind)
{
	return (struct dsa_event){ .kind = kind };
}

static struct dsa_event at_engine(uint32_t kind, uint16_t engine)
{
	return (struct dsa_event){ .kind = kind, .engine = engine };
}

static struct dsa_event submission(uint32_t kind, uint16_t queue)
{
	return (struct dsa_event){ .kind = kind, .queue = queue, .pasid = 5 };
}

static struct dsa_event command(uint8_t number, uint32_t operand)
{
	return (struct dsa_event){ .kind = DSA_EVENT_COMMAND, .command = number, .operand = operand };
}

static struct dsa_event finish(struct dsa_answer ticket)
{
	return (struct dsa_event){ .kind = DSA_EVENT_FINISH, .name = ticket.name, .cell = ticket.cell };
}

static void submissions(void)
{
	struct dsa_model device = DSA_CLOSED;
	CHECK(dsa_open(&device, &small_caps, 100) == DSA_OPENED);
	says(&device, submission(DSA_EVENT_ENQCMD, 0), "the device is off, and q0 is off");
	dsa_close(&device);
	device = enabled(100);
	says(&device, submission(DSA_EVENT_ENQCMD, 9), "the device has no q9");
	says(&device, submission(DSA_EVENT_ENQCMD, 1), "q1 is dedicated, and takes movdir");
	says(&device, submission(DSA_EVENT_MOVDIR64B, 0), "q0 is shared, and takes enqcmd");
	struct dsa_event event = submission(DSA_EVENT_ENQCMD, 0);
	for (int i = 0; i < 3; i++) {
		says(&device, event, "");
		CHECK(dsa_step(&device, &event).kind == DSA_ACCEPTED);
	}
	says(&device, event, "q0 holds 3 entries, and the limited portal goes up to 3");
	event.portal = DSA_UNLIMITED;
	says(&device, event, "");
	dsa_close(&device);
}

static void engines(void)
{
	struct dsa_model device = enabled(100);
	struct dsa_descriptor nothing = descriptor_of(DSA_OP_NOOP, 0, 0), batch = descriptor_of(DSA_OP_BATCH, 0, 2);
	says(&device, at_engine(DSA_EVENT_DISPATCH, 9), "the device has no e9");
	says(&device, at_engine(DSA_EVENT_DISPATCH, 0), "q0 is empty; q1 is empty");
	says(&device, at_engine(DSA_EVENT_FETCH, 0), "e0 works on no batch");
	says(&device, at_engine(DSA_EVENT_START, 0), "no member waits on e0");
	CHECK(dsa_enqcmd(&device, 0, 0, DSA_LIMITED, 5, &batch).kind == DSA_ACCEPTED);
	for (int i = 0; i < 2; i++)
		CHECK(dsa_enqcmd(&device, 0, 0, DSA_LIMITED, 5, &nothing).kind == DSA_ACCEPTED);
	says(&device, at_engine(DSA_EVENT_DISPATCH, 0), "");
	struct dsa_answer first = dsa_dispatch(&device, 0), second = dsa_dispatch(&device, 0);
	says(&device, at_engine(DSA_EVENT_DISPATCH, 0), "q0's front 2 waits for a slot, of which 2 of 2 are in use; q1 is empty");
	says(&device, finish(first), "e0 has fetched 0 of 2 members");
	for (int i = 0; i < 2; i++)
		CHECK(dsa_fetch(&device, 0, &nothing).kind == DSA_FETCHED);
	says(&device, at_engine(DSA_EVENT_FETCH, 0), "e0 has fetched 2 of 2 members");
	says(&device, finish(first), "2 members have not ended");
	CHECK(dsa_finish(&device, 0, second.cell, second.name, DSA_SUCCESS).kind == DSA_DONE);
	says(&device, finish(second), "1 has completed");
	says(&device, finish((struct dsa_answer){ .name = 167 }), "no entry has the name 167");
	says(&device, finish((struct dsa_answer){ .name = 2, .cell = first.cell }), "the cell of the ticket holds 0 by now");
	says(&device, command(DSA_ABORT_ALL, 0), "q0 loses 2; e0 loses 0; batch of e0 loses 3, 4");
	dsa_close(&device);
}

static void commands(void)
{
	struct dsa_model device = enabled(100);
	struct dsa_descriptor nothing = descriptor_of(DSA_OP_NOOP, 0, 0);
	uint32_t names[4] = { 9, 9, 9, 9 };
	says(&device, command(DSA_ENABLE_DEVICE, 0), "the device is on");
	says(&device, command(DSA_ENABLE_WQ, 9), "the device has no q9");
	says(&device, command(DSA_DRAIN_WQ, 0), "no queue is named");
	says(&device, command(DSA_DRAIN_ALL, 0), "");
	says(&device, of(DSA_EVENT_POLL), "no command is active");
	says(&device, of(DSA_EVENT_CLEAR_ERROR), "no error is noted");
	for (int i = 0; i < 3; i++)
		CHECK(dsa_enqcmd(&device, 0, 0, DSA_LIMITED, 5, &nothing).kind == DSA_ACCEPTED);
	CHECK(dsa_dispatch(&device, 0).name == 0);
	CHECK(dsa_awaited_names(&device, names, 4) == DSA_NONE && names[0] == 9);
	says(&device, command(DSA_DRAIN_ALL, 0), "the command waits for 3 entries, q0: 1, 2; e0: 0");
	CHECK(dsa_command(&device, DSA_COMMAND(DSA_DRAIN_ALL, 0)).kind == DSA_ACTIVE);
	CHECK(dsa_enqcmd(&device, 0, 0, DSA_LIMITED, 5, &nothing).name == 3);
	says(&device, of(DSA_EVENT_POLL), "the command waits for 3 entries, first for 1 in q0");
	says(&device, command(DSA_ABORT_ALL, 0), "drain-all is active, and waits for 3 entries, first for 1 in q0");
	CHECK(dsa_awaited_names(&device, names, 0) == 3 && names[0] == 9);
	CHECK(dsa_awaited_names(&device, names, 2) == 3 && names[0] == 1 && names[1] == 2 && names[2] == 9);
	CHECK(dsa_awaited_names(&device, names, 4) == 3 && names[2] == 0 && names[3] == 9);
	dsa_close(&device);
	CHECK(dsa_awaited_names(&device, names, 4) == DSA_NONE && names[0] == 1);
}

static void no_reason(void)
{
	struct dsa_model device = enabled(6), closed = DSA_CLOSED;
	says(&device, at_engine(DSA_EVENT_DISPATCH, 0), "the history has room for 6 steps");
	says_nothing(&closed, of(DSA_EVENT_POLL), DSA_NONE);
	says_nothing(&device, of(0), DSA_NONE);
	says_nothing(&device, of(DSA_EVENT_WRITE_QUEUE), DSA_NONE);
	says_nothing(&device, command(0, 0), DSA_NONE);
	dsa_close(&device);
}

/* Memory is refused at each request in turn. */
static void refused(void)
{
	struct dsa_model device = enabled(100);
	char buffer[ROOM];
	struct dsa_event event = at_engine(DSA_EVENT_DISPATCH, 0);
	int before = blocks, met = 0;
	for (left = 0; dsa_why(&device, &event, buffer, sizeof buffer) == DSA_NO_MEMORY; left = ++met)
		CHECK(blocks == before && left == 0 && buffer[0] == 0 && met < 20);
	left = -1;
	CHECK(met > 0 && blocks == before && strcmp(buffer, "q0 is empty; q1 is empty") == 0);
	says_nothing(&device, of(0), DSA_NONE);
	dsa_close(&device);
	CHECK(blocks == 0);
}

static uint64_t state = 20261130;

/* A number below the count, of a generator by Marsaglia (xorshift64). */
static uint32_t below(uint32_t count)
{
	state ^= state << 13;
	state ^= state >> 7;
	state ^= state << 17;
	return (uint32_t)(state >> 32) % count;
}

static struct dsa_answer tickets[TICKETS];

/* Seldom of an engine or a queue that the device does not have, and seldom of no kind. */
static struct dsa_event any_event(void)
{
	static const uint8_t operations[] = { DSA_OP_NOOP, DSA_OP_BATCH, DSA_OP_BATCH, DSA_OP_DRAIN, DSA_OP_MEMMOVE, 0x99 };
	static const uint8_t often[] = { DSA_ENABLE_WQ, DSA_DRAIN_ALL, DSA_DRAIN_WQ, DSA_DISABLE_WQ, DSA_ABORT_WQ, DSA_DRAIN_PASID };
	struct dsa_answer ticket = tickets[below(TICKETS)];
	struct dsa_event event = { .kind = 1 + below(12), .name = ticket.name, .cell = ticket.cell, .pasid = 5 + below(2),
		.queue = (uint16_t)(below(9) / 4), .engine = below(20) == 0, .portal = (uint8_t)(below(20) / 9),
		.outcome = below(8) == 0, .operand = below(4), .flags = below(4) == 0 };
	event.operation = operations[below(6)];
	event.size = event.operation == DSA_OP_BATCH ? 1 + below(3) : 64u << 4 * below(4);
	event.command = below(8) == 0 ? (uint8_t)below(16) : often[below(6)];
	return event;
}

/* Whether a step that was answered so has a reason. */
static bool has_reason(struct dsa_answer answer)
{
	switch (answer.kind) {
	case DSA_ACCEPTED: case DSA_TAKEN: case DSA_FETCHED: case DSA_STARTED: case DSA_FINISHED: case DSA_CLEARED:
		return false;
	case DSA_DONE:
		return answer.more != DSA_STATUS_SUCCESS;
	case DSA_ENDED:
		return answer.more != 0;
	default:
		return true;
	}
}

static bool is_printable(const char *text, uint64_t length)
{
	for (uint64_t i = 0; i < length; i++)
		if (text[i] < 32 || text[i] > 126)
			return false;
	return true;
}

/* The names are those of held entries, each once. */
static void names_are_held(const struct dsa_model *device)
{
	uint32_t names[64];
	uint64_t count = dsa_awaited_names(device, names, 64);
	CHECK(count == dsa_awaited(device) && (count == DSA_NONE || count <= dsa_held(device)));
	for (uint64_t i = 0; count != DSA_NONE && i < count; i++) {
		CHECK(names[i] < dsa_next_name(device) && dsa_fate_of(device, names[i]).kind == DSA_NOT_ENDED);
		for (uint64_t j = 0; j < i; j++)
			CHECK(names[i] != names[j]);
	}
}

static void one_step(struct dsa_model *device)
{
	char text[ROOM];
	struct dsa_event event = any_event();
	uint64_t length = dsa_why(device, &event, text, sizeof text);
	struct dsa_answer answer = dsa_step(device, &event);
	if (answer.kind == DSA_TAKEN || answer.kind == DSA_STARTED)
		tickets[below(TICKETS)] = answer;
	CHECK((length == DSA_NONE) == (answer.kind == DSA_BAD_ARGUMENT));
	if (length != DSA_NONE) {
		CHECK(strlen(text) == length && is_printable(text, length));
		CHECK((length != 0) == has_reason(answer));
	}
	names_are_held(device);
}

int main(int count, char **words)
{
	int runs = count > 1 ? atoi(words[1]) : RUNS;
	submissions();
	engines();
	commands();
	no_reason();
	refused();
	for (int run = 0; run < runs; run++) {
		struct dsa_model device = enabled(MOST_STEPS - below(40));
		for (int step = 0; step < MOST_STEPS; step++)
			one_step(&device);
		dsa_close(&device);
	}
	return 0;
}
