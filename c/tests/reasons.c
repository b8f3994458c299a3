/* What dsa_reason_of and dsa_queue_reason write has all the numbers of the sentence of dsa_why, which is written again from them
 * alone, and no number beside these. Each kind is reached but that of names that run short. */
#include <stddef.h>
#include "check.h"

#define ROOM 8192
#define KINDS (DSA_REASON_QUEUE_WITHOUT_GROUP + 1)
#define RUNS 150
#define MOST_STEPS 700
#define TICKETS 6

static bool reached[KINDS];

/* ---- the sentence of a reason ---- */

#define WANT \
	"{needed|read buffer|read buffers}, group {group} uses {count} of {limit}, " \
	"all groups use {in_use} of {buffers}, and {kept|is kept|are kept}"
#define FETCHED "e{engine} has fetched {count} of {limit|member|members}"

/* What stands in braces is a field: as a number, before a word that is the first for 1, or as a word. After a minus it is not in
 * the text. */
static const char *const forms[KINDS] = {
	[DSA_REASON_NONE] = "",
	[DSA_REASON_HISTORY_FULL] = "the history has room for {limit|step|steps}",
	[DSA_REASON_NAMES_SHORT] = "the history has room for {limit|step|steps}, as many as names were left",
	[DSA_REASON_NO_SUCH_QUEUE] = "the device has no q{queue}",
	[DSA_REASON_NO_SUCH_ENGINE] = "the device has no e{engine}",
	[DSA_REASON_QUEUE_NOT_ON] = "the device is {device_phase}, and q{queue} is {phase}",
	[DSA_REASON_QUEUE_DEDICATED] = "q{queue} is dedicated, and takes movdir",
	[DSA_REASON_QUEUE_SHARED] = "q{queue} is shared, and takes enqcmd",
	[DSA_REASON_PORTAL_AT_LIMIT] =
		"q{queue} holds {count|entry|entries}, and the {portal} portal goes up to {limit}",
	[DSA_REASON_ENGINE_IDLE] = "{-engine}",
	[DSA_REASON_ENGINE_WITHOUT_GROUP] = "e{engine} is of no group",
	[DSA_REASON_ENGINE_WITHOUT_QUEUE] = "e{engine} is of a group without a queue",
	[DSA_REASON_QUEUE_EMPTY] = "q{queue} is empty",
	[DSA_REASON_NO_SLOT] =
		"q{queue}'s front {name} waits for a slot, of which {count} of {limit|is in use|are in use}",
	[DSA_REASON_FRONT_LACKS_BUFFERS] = "q{queue}'s front {name} needs " WANT,
	[DSA_REASON_OTHER_BATCH] =
		"q{queue}'s front {name} is a batch, and the engine works on batch {other}",
	[DSA_REASON_OTHER_DRAIN] =
		"q{queue}'s front {name} is a drain, and drain {other} is in progress on the engine",
	[DSA_REASON_NO_BATCH] = "e{engine} works on no batch",
	[DSA_REASON_ALL_FETCHED] = FETCHED,
	[DSA_REASON_BATCH_CLOSED] = FETCHED ", and the rest is abandoned",
	[DSA_REASON_NO_MEMBER] = "no member waits on e{engine}",
	[DSA_REASON_FENCE_WAITS] = "member {name} has a fence, and waits for {other}",
	[DSA_REASON_FENCE_FAILED] = "member {name} has a fence, member {other} before it failed, "
		"and {count|ends unstarted|end unstarted}",
	[DSA_REASON_FENCE_FAILED_FORGOTTEN] = "member {name} has a fence, a member before it failed, "
		"and {count|ends unstarted|end unstarted}",
	[DSA_REASON_MEMBER_LACKS_BUFFERS] = "the member needs " WANT,
	[DSA_REASON_CELL_EMPTY] = "the cell of the ticket holds no entry",
	[DSA_REASON_CELL_OF_OTHER] = "the cell of the ticket holds {other} by now",
	[DSA_REASON_ELSEWHERE] = "the entry stands in {list}",
	[DSA_REASON_NOT_STARTED] = "the member has not started",
	[DSA_REASON_MEMBERS_LEFT] = "{count|member has not ended|members have not ended}",
	[DSA_REASON_STILL_TO_FETCH] = FETCHED,
	[DSA_REASON_DRAIN_WAITS] = "the drain waits for {other}",
	[DSA_REASON_COMPLETED] = "{name} has completed{-status}",
	[DSA_REASON_ABORTED] = "{name} was aborted by {command}",
	[DSA_REASON_ABANDONED] = "{name} was abandoned",
	[DSA_REASON_NO_SUCH_NAME] = "no entry has the name {name}",
	[DSA_REASON_NOT_SUPPORTED] = "operation 0x{operation} is not supported",
	[DSA_REASON_FENCE_OUTSIDE] = "a fence outside a batch",
	[DSA_REASON_SIZE_OUTSIDE] = "size {count} is above {shift}, the transfer limit of q{queue}",
	[DSA_REASON_COUNT_OUTSIDE] = "count {count} is above {shift}, the batch limit of q{queue}",
	[DSA_REASON_MEMBERS_FAILED] = "member {name} ended with {status}, the first of {count}",
	[DSA_REASON_MEMBERS_FAILED_FORGOTTEN] = "a member failed",
	[DSA_REASON_PAGE_FAULT] = "page fault",
	[DSA_REASON_COMMAND_ACTIVE] =
		"{command}{operand} is active, and waits for {count|entry|entries}, first for {name} in {list}",
	[DSA_REASON_COMMAND_OVER] = "{command}{operand} has ended, and no poll has reported it",
	[DSA_REASON_NO_QUEUE_NAMED] = "no queue is named",
	[DSA_REASON_WRONG_QUEUE_PHASE] = "q{queue} is {phase}",
	[DSA_REASON_WRONG_DEVICE_PHASE] = "the device is {device_phase}",
	[DSA_REASON_WOULD_REMOVE] = "{-count}",
	[DSA_REASON_WOULD_WAIT] = "the command waits for {count|entry|entries}, {list}: {name}",
	[DSA_REASON_NO_COMMAND] = "no command is active",
	[DSA_REASON_COMMAND_WAITS] =
		"the command waits for {count|entry|entries}, first for {name} in {list}",
	[DSA_REASON_NOTHING_NOTED] = "no error is noted",
	[DSA_REASON_GROUP_NAMES_NO_QUEUE] =
		"group {group} names q{queue}, and the device has {limit|queue|queues}",
	[DSA_REASON_GROUP_NAMES_NO_ENGINE] =
		"group {group} names e{engine}, and the device has {limit|engine|engines}",
	[DSA_REASON_SIZES_TOO_LARGE] = "the sizes of the queues are {count}, of {limit}",
	[DSA_REASON_QUEUE_IN_TWO_GROUPS] = "q{queue} is in group {group} and in group {other}",
	[DSA_REASON_ENGINE_IN_TWO_GROUPS] = "e{engine} is in group {group} and in group {other}",
	[DSA_REASON_RESERVED_TOO_MANY] =
		"the groups reserve {count|read buffer|read buffers}, of {limit}",
	[DSA_REASON_ALLOWED_BELOW_RESERVED] = "group {group} may use {count|read buffer|read buffers}, "
		"below the {limit} that it reserves",
	[DSA_REASON_ALLOWED_ABOVE_REST] = "group {group} may use {count|read buffer|read buffers}, "
		"above the {limit} that others leave",
	[DSA_REASON_ALLOWED_BELOW_NEED] = "group {group} may use {count|read buffer|read buffers}, "
		"below the {limit} that a descriptor may need",
	[DSA_REASON_GROUP_WITHOUT_ENGINE] = "group {group} has a queue and no engine",
	[DSA_REASON_GROUP_WITHOUT_QUEUE] = "group {group} has an engine and no queue",
	[DSA_REASON_SIZE_ZERO] = "the size of q{queue} is 0",
	[DSA_REASON_PRIORITY_ZERO] = "the priority of q{queue} is 0",
	[DSA_REASON_PRIORITY_TOO_LARGE] = "the priority of q{queue} is {count}, above {limit}",
	[DSA_REASON_THRESHOLD_ZERO] = "the threshold of q{queue} is 0",
	[DSA_REASON_THRESHOLD_ABOVE_SIZE] =
		"the threshold of q{queue} is {count}, above its size of {limit}",
	[DSA_REASON_BATCH_TOO_LARGE] = "the batch shift of q{queue} is {count}, above the device's {limit}",
	[DSA_REASON_TRANSFER_TOO_LARGE] =
		"the transfer shift of q{queue} is {count}, above the device's {limit}",
	[DSA_REASON_QUEUE_WITHOUT_GROUP] = "no group has q{queue}"
};

/* The form of what has two, by its numbers. */
static const char *form_of(const struct dsa_reason *reason)
{
	CHECK(reason->kind < KINDS);
	if (reason->kind == DSA_REASON_NOT_SUPPORTED && reason->operation == DSA_OP_BATCH)
		return "batch is not supported in a batch{-operation}";
	if (reason->kind == DSA_REASON_NOT_SUPPORTED && reason->operation == DSA_OP_DRAIN)
		return "drain is not supported in a batch{-operation}";
	if (reason->kind == DSA_REASON_SIZE_OUTSIDE && reason->count == 0)
		return "size {count} is below 1{-shift}{-queue}";
	if (reason->kind == DSA_REASON_COUNT_OUTSIDE && reason->count < 2)
		return "count {count} is below 2{-shift}{-queue}";
	if (reason->kind == DSA_REASON_MEMBERS_FAILED && reason->count == 1)
		return "member {name} ended with {status}{-count}";
	return forms[reason->kind];
}

#define FIELD(it) { #it, offsetof(struct dsa_reason, it) }
static const struct field { const char *name; size_t at; } fields[] = {
	FIELD(queue), FIELD(group), FIELD(engine), FIELD(list), FIELD(name), FIELD(other), FIELD(count), FIELD(limit),
	FIELD(needed), FIELD(in_use), FIELD(buffers), FIELD(kept), FIELD(phase), FIELD(device_phase), FIELD(portal),
	FIELD(command), FIELD(operand), FIELD(operation), FIELD(status), FIELD(shift)
};

static bool is_named(const char *name, size_t length, const char *field)
{
	return strlen(field) == length && memcmp(name, field, length) == 0;
}

/* The field of that name, which is 0 from here on. */
static uint32_t take(struct dsa_reason *left, const char *name, size_t length)
{
	for (size_t i = 0; i < sizeof fields / sizeof fields[0]; i++)
		if (is_named(name, length, fields[i].name)) {
			uint32_t *field = (uint32_t *)(void *)((char *)left + fields[i].at), number = *field;
			*field = 0;
			return number;
		}
	CHECK(false);
	return 0;
}

/* The name of a command in small letters, with hyphens. */
static size_t write_command(char *text, uint32_t number)
{
	const char *name = dsa_command_name(number);
	size_t length = strlen(name);
	CHECK(name[0] != '?');
	for (size_t i = 0; i < length; i++)
		text[i] = (char)(name[i] == ' ' ? '-' : name[i] >= 'A' && name[i] <= 'Z' ? name[i] + 32 : name[i]);
	return length;
}

static int write_operand(char *text, uint32_t command, uint32_t operand)
{
	if (command <= DSA_RESET_DEVICE) {
		CHECK(operand == 0);
		return 0;
	}
	bool is_mask = command >= DSA_DISABLE_WQ && command <= DSA_RESET_WQ;
	return sprintf(text, is_mask ? " 0x%x" : " %u", operand);
}

static int write_list(char *text, uint32_t list, struct dsa_reason *left)
{
	CHECK(list == DSA_LIST_QUEUE || list == DSA_LIST_ENGINE || list == DSA_LIST_BATCH);
	if (list == DSA_LIST_QUEUE)
		return sprintf(text, "q%u", take(left, "queue", 5));
	return sprintf(text, list == DSA_LIST_BATCH ? "batch of e%u" : "e%u", take(left, "engine", 6));
}

/* A field as the sentence has it. */
static size_t write_field(char *text, const struct dsa_reason *reason, struct dsa_reason *left, const char *name, size_t length)
{
	static const char *const phases[] = { "off", "on", "stopping" };
	uint32_t number = take(left, name, length);
	if (is_named(name, length, "phase") || is_named(name, length, "device_phase")) {
		CHECK(number <= DSA_STOPPING);
		return (size_t)sprintf(text, "%s", phases[number]);
	}
	if (is_named(name, length, "portal"))
		return (size_t)sprintf(text, "%s", number == DSA_LIMITED ? "limited" : "unlimited");
	if (is_named(name, length, "list"))
		return (size_t)write_list(text, number, left);
	if (is_named(name, length, "command"))
		return write_command(text, number);
	if (is_named(name, length, "operand"))
		return (size_t)write_operand(text, reason->command, number);
	if (is_named(name, length, "operation"))
		return (size_t)sprintf(text, "%x", number);
	if (is_named(name, length, "status"))
		return (size_t)sprintf(text, "%02x", number);
	if (is_named(name, length, "shift"))
		return (size_t)sprintf(text, number < 32 ? "%lu" : "2^%lu", number < 32 ? 1ul << number : (unsigned long)number);
	return (size_t)sprintf(text, "%u", number);
}

/* What is in braces. The place behind it. */
static const char *write_part(char **text, const struct dsa_reason *reason, struct dsa_reason *left, const char *form)
{
	const char *end = strchr(form, '}'), *one = memchr(form, '|', (size_t)(end - form));
	size_t length = (size_t)((one != NULL ? one : end) - form);
	struct dsa_reason copy = *reason;
	bool is_one = one != NULL && take(&copy, form, length) == 1;
	*text += write_field(*text, reason, left, form, length);
	if (one != NULL) {
		const char *many = memchr(one + 1, '|', (size_t)(end - one - 1));
		CHECK(many != NULL);
		*text += is_one ? sprintf(*text, " %.*s", (int)(many - one - 1), one + 1)
		                : sprintf(*text, " %.*s", (int)(end - many - 1), many + 1);
	}
	return end + 1;
}

/* The sentence, of which no field is left. */
static void write_sentence(char *text, const struct dsa_reason *reason)
{
	static const struct dsa_reason none;
	struct dsa_reason left = *reason;
	const char *form = form_of(reason);
	left.kind = 0;
	while (*form != '\0') {
		if (*form != '{') {
			*text++ = *form++;
		} else if (form[1] == '-') {
			const char *end = strchr(form, '}');
			take(&left, form + 2, (size_t)(end - form - 2));
			form = end + 1;
		} else {
			form = write_part(&text, reason, &left, form + 1);
		}
	}
	*text = '\0';
	CHECK(memcmp(&left, &none, sizeof none) == 0);
}

/* ---- the text of an event ---- */

/* For which groups read buffers are kept, and that these are as many. The place behind it. */
static const char *past_kept(const struct dsa_reason *reason, const char *text)
{
	uint32_t kept = 0, number, group;
	int length;
	if (reason->kind != DSA_REASON_FRONT_LACKS_BUFFERS && reason->kind != DSA_REASON_MEMBER_LACKS_BUFFERS)
		return text;
	while (sscanf(text, ", %u for group %u%n", &number, &group, &length) == 2) {
		CHECK(group != reason->group);
		kept += number;
		text += length;
	}
	CHECK(kept == reason->kept);
	return text;
}

/* The text begins with the sentence. The place behind it. */
static const char *past_sentence(const struct dsa_reason *reason, const char *text)
{
	char sentence[ROOM];
	write_sentence(sentence, reason);
	CHECK(strncmp(text, sentence, strlen(sentence)) == 0);
	reached[reason->kind] = true;
	return past_kept(reason, text + strlen(sentence));
}

/* The sentences of the queues, one behind another. The place behind them. */
static const char *past_queues(const struct dsa_model *device, uint16_t engine, const char *text)
{
	struct dsa_reason reason;
	struct dsa_caps caps;
	unsigned told = 0;
	CHECK(dsa_caps_of(device, &caps) == 1);
	for (uint16_t queue = 0; queue < caps.queues; queue++) {
		if (dsa_queue_reason(device, engine, queue, &reason) == 0)
			continue;
		CHECK(reason.kind != DSA_REASON_NONE && reason.queue == queue);
		if (told++ != 0) {
			CHECK(strncmp(text, "; ", 2) == 0);
			text += 2;
		}
		text = past_sentence(&reason, text);
	}
	CHECK(told != 0);
	return text;
}

static uint32_t count_of(const char *text, const char *word)
{
	uint32_t count = 0;
	for (const char *at = text; (at = strstr(at, word)) != NULL; at++)
		count++;
	return count;
}

/* The names in a list of lists are as many as the reason counts. */
static void names_are_counted(const struct dsa_reason *reason, const char *text)
{
	uint32_t first = reason->kind == DSA_REASON_WOULD_REMOVE;
	CHECK(count_of(text, ", ") + count_of(text, "; ") + first == reason->count);
}

/* The reason is that of the text. */
static void agrees(const struct dsa_model *device, const struct dsa_event *event, const struct dsa_reason *reason,
                   const char *text)
{
	const char *end = past_sentence(reason, text);
	if (reason->kind == DSA_REASON_ENGINE_IDLE)
		end = past_queues(device, event->engine, end);
	if (reason->kind == DSA_REASON_WOULD_REMOVE || reason->kind == DSA_REASON_WOULD_WAIT)
		names_are_counted(reason, text);
	else
		CHECK(*end == '\0');
	if (reason->kind == DSA_REASON_COMPLETED)
		CHECK(dsa_fate_of(device, reason->name).number == reason->status);
}

/* The reason of an event, which has a text exactly where it is one. */
static struct dsa_reason reason_of(const struct dsa_model *device, struct dsa_event event)
{
	char text[ROOM];
	struct dsa_reason reason, filled;
	memset(&reason, 0x5a, sizeof reason);
	filled = reason;
	uint64_t length = dsa_why(device, &event, text, sizeof text);
	CHECK(length == DSA_NONE || length < sizeof text);
	CHECK(dsa_reason_of(device, &event, &reason) == (length != DSA_NONE));
	if (length == DSA_NONE) {
		CHECK(memcmp(&reason, &filled, sizeof reason) == 0);
		return reason;
	}
	CHECK((reason.kind == DSA_REASON_NONE) == (length == 0));
	agrees(device, &event, &reason, text);
	return reason;
}

static void expect(const struct dsa_model *device, struct dsa_event event, uint32_t kind)
{
	CHECK(reason_of(device, event).kind == kind);
}

/* ---- events ---- */

static struct dsa_event of(uint32_t kind)
{
	return (struct dsa_event){ .kind = kind };
}

static struct dsa_event command(uint8_t number, uint32_t operand)
{
	return (struct dsa_event){ .kind = DSA_EVENT_COMMAND, .command = number, .operand = operand };
}

/* ---- the check of an enable ---- */

static const struct dsa_caps caps = { 3, 3, 4, 24, 16, 2, 3, 14 };
static const struct dsa_queue queues[] = {
	{ 8, 5, 0, 1, 3, 14, 0 }, { 4, 0, 1, 2, 3, 14, 7 }, { 6, 6, 0, 15, 2, 12, 0 }
};
static const struct dsa_group groups[] = { { 3, 1, 4, 5 }, { 4, 6, 3, 6 }, { 0, 0, 0, 0 } };

static struct dsa_model configured(const struct dsa_queue *queue, const struct dsa_group *group, uint64_t capacity)
{
	struct dsa_model device = DSA_CLOSED;
	CHECK(dsa_open(&device, &caps, capacity) == DSA_OPENED);
	for (uint16_t it = 0; it < caps.queues; it++)
		CHECK(dsa_write_queue(&device, it, &queue[it]).kind == DSA_WRITTEN);
	for (uint16_t it = 0; it < caps.groups; it++)
		CHECK(dsa_write_group(&device, it, &group[it]).kind == DSA_WRITTEN);
	return device;
}

/* Enable Device is refused for that with a group as this one. */
static void group_is(uint16_t number, struct dsa_group group, uint32_t kind)
{
	struct dsa_group changed[] = { groups[0], groups[1], groups[2] };
	changed[number] = group;
	struct dsa_model device = configured(queues, changed, 20);
	expect(&device, command(DSA_ENABLE_DEVICE, 0), kind);
	dsa_close(&device);
}

/* And Enable WQ with a queue as this one. */
static void queue_is(struct dsa_queue queue, uint32_t kind)
{
	struct dsa_queue changed[] = { queues[0], queue, queues[2] };
	struct dsa_model device = configured(changed, groups, 20);
	CHECK(dsa_command(&device, DSA_COMMAND(DSA_ENABLE_DEVICE, 0)).kind == DSA_ENDED);
	expect(&device, command(DSA_ENABLE_WQ, 1), kind);
	dsa_close(&device);
}

static void checks(void)
{
	group_is(1, (struct dsa_group){ 12, 6, 3, 6 }, DSA_REASON_GROUP_NAMES_NO_QUEUE);
	group_is(1, (struct dsa_group){ 4, 18, 3, 6 }, DSA_REASON_GROUP_NAMES_NO_ENGINE);
	group_is(1, (struct dsa_group){ 6, 6, 3, 6 }, DSA_REASON_QUEUE_IN_TWO_GROUPS);
	group_is(2, (struct dsa_group){ 0, 4, 0, 5 }, DSA_REASON_ENGINE_IN_TWO_GROUPS);
	group_is(1, (struct dsa_group){ 4, 6, 13, 13 }, DSA_REASON_RESERVED_TOO_MANY);
	group_is(1, (struct dsa_group){ 4, 6, 7, 6 }, DSA_REASON_ALLOWED_BELOW_RESERVED);
	group_is(1, (struct dsa_group){ 4, 6, 3, 14 }, DSA_REASON_ALLOWED_ABOVE_REST);
	group_is(1, (struct dsa_group){ 4, 6, 3, 3 }, DSA_REASON_ALLOWED_BELOW_NEED);
	group_is(1, (struct dsa_group){ 4, 0, 3, 6 }, DSA_REASON_GROUP_WITHOUT_ENGINE);
	group_is(2, (struct dsa_group){ 0, 8, 0, 5 }, DSA_REASON_GROUP_WITHOUT_QUEUE);
	queue_is((struct dsa_queue){ 0, 0, 1, 2, 3, 12, 7 }, DSA_REASON_SIZE_ZERO);
	queue_is((struct dsa_queue){ 4, 0, 1, 0, 3, 12, 7 }, DSA_REASON_PRIORITY_ZERO);
	queue_is((struct dsa_queue){ 4, 0, 1, 16, 3, 12, 7 }, DSA_REASON_PRIORITY_TOO_LARGE);
	queue_is((struct dsa_queue){ 4, 0, 0, 2, 3, 12, 7 }, DSA_REASON_THRESHOLD_ZERO);
	queue_is((struct dsa_queue){ 4, 5, 0, 2, 3, 12, 7 }, DSA_REASON_THRESHOLD_ABOVE_SIZE);
	queue_is((struct dsa_queue){ 4, 0, 1, 2, 4, 12, 7 }, DSA_REASON_BATCH_TOO_LARGE);
	queue_is((struct dsa_queue){ 4, 0, 1, 2, 3, 15, 7 }, DSA_REASON_TRANSFER_TOO_LARGE);

	struct dsa_queue large[] = { queues[0], queues[1], { 13, 6, 0, 15, 2, 10, 0 } };
	struct dsa_model device = configured(large, groups, 20);
	expect(&device, command(DSA_ENABLE_DEVICE, 0), DSA_REASON_SIZES_TOO_LARGE);
	dsa_close(&device);
	const struct dsa_group without[] = { { 1, 1, 4, 5 }, { 4, 6, 3, 6 }, { 0, 8, 0, 5 } };
	device = configured(queues, without, 20);
	expect(&device, (struct dsa_event){ .kind = DSA_EVENT_DISPATCH, .engine = 3 }, DSA_REASON_ENGINE_WITHOUT_QUEUE);
	CHECK(dsa_write_group(&device, 2, &groups[2]).kind == DSA_WRITTEN);
	CHECK(dsa_command(&device, DSA_COMMAND(DSA_ENABLE_DEVICE, 0)).kind == DSA_ENDED);
	expect(&device, command(DSA_ENABLE_WQ, 1), DSA_REASON_QUEUE_WITHOUT_GROUP);
	dsa_close(&device);
}

/* ---- what is written, and what is not ---- */

/* The reason of each queue, whatever the engine takes. */
static void queue_reasons(void)
{
	struct dsa_model device = enabled(100), closed = DSA_CLOSED;
	struct dsa_descriptor nothing = descriptor_of(DSA_OP_NOOP, 0, 0);
	struct dsa_reason reason, filled;
	memset(&filled, 0x5a, sizeof filled);
	reason = filled;
	CHECK(dsa_queue_reason(&device, 1, 0, &reason) == 0 && dsa_queue_reason(&device, 0, 2, &reason) == 0);
	CHECK(dsa_queue_reason(&closed, 0, 0, &reason) == 0 && memcmp(&reason, &filled, sizeof reason) == 0);
	struct dsa_event event = of(DSA_EVENT_POLL);
	CHECK(dsa_reason_of(&closed, &event, &reason) == 0 && memcmp(&reason, &filled, sizeof reason) == 0);
	event.kind = DSA_EVENT_WRITE_QUEUE;
	CHECK(dsa_reason_of(&device, &event, &reason) == 0 && memcmp(&reason, &filled, sizeof reason) == 0);
	CHECK(dsa_enqcmd(&device, 0, 0, DSA_LIMITED, 5, &nothing).kind == DSA_ACCEPTED);
	CHECK(dsa_queue_reason(&device, 0, 0, &reason) == 1 && reason.kind == DSA_REASON_NONE && reason.queue == 0);
	CHECK(dsa_queue_reason(&device, 0, 1, &reason) == 1 && reason.kind == DSA_REASON_QUEUE_EMPTY && reason.queue == 1);
	expect(&device, of(DSA_EVENT_DISPATCH), DSA_REASON_NONE);
	dsa_close(&device);
}

/* ---- random runs ---- */

static uint64_t state = 20261130;

/* A number below the count, of a generator by Marsaglia (xorshift64). */
static uint32_t below(uint32_t count)
{
	state ^= state << 13;
	state ^= state >> 7;
	state ^= state << 17;
	return (uint32_t)(state >> 32) % count;
}

/* The last tickets, each with the engine that it came from, where it came from one. */
static struct ticket { struct dsa_answer of; uint16_t engine; } tickets[TICKETS];

static void note(struct dsa_answer answer, uint16_t engine)
{
	if (answer.kind == DSA_ACCEPTED || answer.kind == DSA_TAKEN || answer.kind == DSA_FETCHED
		|| answer.kind == DSA_STARTED)
		tickets[below(TICKETS)] = (struct ticket){ answer, engine };
}

static struct dsa_event any_finish(void)
{
	struct ticket ticket = tickets[below(TICKETS)];
	struct dsa_event event = { .kind = DSA_EVENT_FINISH, .name = ticket.of.name,
		.cell = ticket.of.cell, .engine = ticket.engine };
	event.outcome = below(4) == 0;
	if (below(10) == 0)
		event.cell = below(30);
	if (below(20) == 0)
		event.name += below(5);
	if (below(20) == 0)
		event.engine = (uint16_t)below(5);
	return event;
}

static struct dsa_event any_command(void)
{
	static const uint8_t often[] = { DSA_ENABLE_DEVICE, DSA_ENABLE_WQ, DSA_ENABLE_WQ, DSA_ENABLE_WQ, DSA_DRAIN_WQ,
		DSA_DISABLE_WQ, DSA_DRAIN_PASID, DSA_DRAIN_ALL };
	struct dsa_event event = command(often[below(8)], below(4));
	if (below(8) == 0)
		event = command((uint8_t)(1 + below(12)), below(12));
	if (event.command >= DSA_DRAIN_PASID)
		event.operand = 5 + below(3);
	return event;
}

static struct dsa_event any_event(void)
{
	static const uint32_t kinds[] = { DSA_EVENT_ENQCMD, DSA_EVENT_ENQCMD, DSA_EVENT_MOVDIR64B, DSA_EVENT_DISPATCH,
		DSA_EVENT_DISPATCH, DSA_EVENT_FETCH, DSA_EVENT_FETCH, DSA_EVENT_START, DSA_EVENT_START, DSA_EVENT_FINISH,
		DSA_EVENT_FINISH, DSA_EVENT_FINISH, DSA_EVENT_FINISH, DSA_EVENT_COMMAND, DSA_EVENT_POLL };
	static const uint8_t operations[] = { DSA_OP_NOOP, DSA_OP_BATCH, DSA_OP_BATCH, DSA_OP_DRAIN, DSA_OP_MEMMOVE,
		DSA_OP_MEMMOVE, DSA_OP_COMPARE, 0x99 };
	struct dsa_event event = { .kind = kinds[below(15)], .queue = (uint16_t)below(3), .engine = (uint16_t)below(3),
		.pasid = 5 + below(2), .portal = (uint8_t)below(2), .operation = operations[below(8)] };
	if (event.kind == DSA_EVENT_FINISH)
		return any_finish();
	if (event.kind == DSA_EVENT_COMMAND)
		return any_command();
	if (event.kind == DSA_EVENT_MOVDIR64B && below(4) != 0)
		event.queue = 1;
	if (below(40) == 0)
		event.queue = (uint16_t)below(5), event.engine = (uint16_t)below(6), event.kind = 1 + below(12);
	event.flags = below(event.kind == DSA_EVENT_FETCH ? 3 : 12) == 0;
	event.size = event.operation == DSA_OP_BATCH ? 1 + below(10) : below(20) == 0 ? 0 : 1024u << below(6);
	if (event.operation == DSA_OP_BATCH && below(4) != 0)
		event.size = 2 + below(3);
	return event;
}

/* The step is answered by what was said before it: a reason, or none. */
static void one_step(struct dsa_model *device)
{
	struct dsa_event event = any_event();
	uint64_t stored = dsa_history_length(device);
	struct dsa_reason reason = reason_of(device, event);
	CHECK(dsa_history_length(device) == stored);
	struct dsa_answer answer = dsa_step(device, &event);
	if (answer.kind == DSA_FULL)
		CHECK(reason.kind == DSA_REASON_HISTORY_FULL && reason.limit == stored);
	if (answer.kind == DSA_FULL || below(100) == 0)
		CHECK(dsa_begin_anew(device, below(2)) == DSA_ANEW_BEGUN);
	if (answer.kind == DSA_ENDED)
		CHECK(reason.kind == (answer.more == 0 ? DSA_REASON_NONE : DSA_REASON_WOULD_REMOVE) && reason.count == answer.more);
	if (answer.kind == DSA_ACTIVE && event.kind == DSA_EVENT_COMMAND)
		CHECK(reason.kind == DSA_REASON_WOULD_WAIT && reason.count == dsa_awaited(device));
	note(answer, event.engine);
}

static void one_run(void)
{
	struct dsa_model device = configured(queues, groups, 60 + below(60));
	if (below(2) == 0) {
		CHECK(dsa_command(&device, DSA_COMMAND(DSA_ENABLE_DEVICE, 0)).kind == DSA_ENDED);
		for (uint16_t queue = 0; queue < caps.queues; queue++)
			CHECK(dsa_command(&device, DSA_COMMAND(DSA_ENABLE_WQ, queue)).kind == DSA_ENDED);
	}
	for (int step = 0; step < MOST_STEPS; step++)
		one_step(&device);
	dsa_close(&device);
}

int main(void)
{
	checks();
	queue_reasons();
	for (int run = 0; run < RUNS; run++)
		one_run();
	for (uint32_t kind = 0; kind < KINDS; kind++)
		if (!reached[kind] && kind != DSA_REASON_NAMES_SHORT) {
			fprintf(stderr, "no reason was: %s\n", dsa_reason_name(kind));
			return 1;
		}
	return 0;
}
