/* Where a handle is closed, that it moves, and that no read writes to it. The functions that the
 * header defines are here the library's, as a program in another language calls them. */
#define dsa_closed in_header_closed
#define dsa_kind_name in_header_kind_name
#define dsa_fault_name in_header_fault_name
#define dsa_command_name in_header_command_name
#define dsa_status_name in_header_status_name
#define dsa_operation_name in_header_operation_name
#define dsa_load_name in_header_load_name
#define dsa_anew_result_name in_header_anew_result_name
#define dsa_reason_name in_header_reason_name
#include "check.h"
#undef dsa_closed
#undef dsa_kind_name
#undef dsa_fault_name
#undef dsa_command_name
#undef dsa_status_name
#undef dsa_operation_name
#undef dsa_load_name
#undef dsa_anew_result_name
#undef dsa_reason_name

struct dsa_model dsa_closed(void);
const char *dsa_kind_name(uint32_t kind);
const char *dsa_fault_name(uint32_t number);
const char *dsa_command_name(uint32_t number);
const char *dsa_status_name(uint32_t status);
const char *dsa_operation_name(uint32_t operation);
const char *dsa_load_name(uint32_t result);
const char *dsa_anew_result_name(uint32_t result);
const char *dsa_reason_name(uint32_t kind);

static void closed(struct dsa_model *handle)
{
	CHECK(handle->at == NULL && !handle->holds);
	CHECK(dsa_poll(handle).kind == DSA_NO_DEVICE && dsa_capacity(handle) == DSA_NONE);
	dsa_close(handle);
	CHECK(dsa_open(handle, &small_caps, 7) == DSA_OPENED && dsa_capacity(handle) == 7);
	dsa_close(handle);
	CHECK(handle->at == NULL && !handle->holds);
}

/* Closed handles, each of another origin. */
static void origins(void)
{
	struct dsa_model by_macro = DSA_CLOSED, by_call = dsa_closed(), by_header = in_header_closed();
	struct dsa_model *cleared = calloc(1, sizeof *cleared);
	static struct dsa_model of_the_program;
	CHECK(cleared != NULL);
	closed(&by_macro);
	closed(&by_call);
	closed(&by_header);
	closed(cleared);
	closed(&of_the_program);
	free(cleared);
	dsa_close(NULL);
}

/* The device goes with the bytes, and the old ones are overwritten at once. */
static void moves(void)
{
	struct dsa_descriptor nothing = descriptor_of(DSA_OP_NOOP, 0, 0);
	struct dsa_model first = enabled(100), second;
	struct dsa_model *third = malloc(sizeof *third);
	CHECK(third != NULL && dsa_enqcmd(&first, 0, 0, DSA_LIMITED, 5, &nothing).kind == DSA_ACCEPTED);
	second = first;
	memset(&first, 0xff, sizeof first);
	CHECK(dsa_held(&second) == 1 && dsa_dispatch(&second, 0).kind == DSA_TAKEN);
	memcpy(third, &second, sizeof *third);
	second = dsa_closed();
	closed(&second);
	CHECK(dsa_capacity(third) == 100 && dsa_in_progress(third, 0) == 1);
	dsa_close(third);
	free(third);
}

/* Makes a read, of which the 16 bytes of the handle stay as they were. */
#define READ(call)                                                       \
	do {                                                             \
		struct dsa_model before;                                 \
		memcpy(&before, handle, sizeof before);                  \
		(void)call;                                              \
		CHECK(memcmp(&before, handle, sizeof before) == 0);      \
	} while (0)

static void read_counts(const struct dsa_model *handle)
{
	READ(dsa_saved_size(handle));
	READ(dsa_capacity(handle));
	READ(dsa_room(handle));
	READ(dsa_is_anew(handle));
	READ(dsa_occupancy(handle, 0));
	READ(dsa_used(handle, 0));
	READ(dsa_held(handle));
	READ(dsa_next_name(handle));
	READ(dsa_active(handle));
	READ(dsa_awaited(handle));
	READ(dsa_history_length(handle));
	READ(dsa_history_is_full(handle));
	READ(dsa_fates_length(handle));
	READ(dsa_phase(handle));
	READ(dsa_queue_phase(handle, 0));
	READ(dsa_in_progress(handle, 0));
	READ(dsa_members(handle, 0));
	READ(dsa_holds(handle, 0, 0));
	READ(dsa_noted(handle));
	READ(dsa_history_answer(handle, 0));
	READ(dsa_fate_at(handle, 0));
	READ(dsa_fate_of(handle, 0));
}

/* Those that write what they read elsewhere. */
static void read_rows(const struct dsa_model *handle)
{
	struct dsa_caps caps;
	struct dsa_queue queue;
	struct dsa_group group;
	struct dsa_entry entry;
	struct dsa_batch batch;
	struct dsa_event event = { .kind = DSA_EVENT_POLL };
	struct dsa_reason reason;
	uint32_t names[4];
	uint8_t bytes[1000];
	char text[200];
	READ(dsa_caps_of(handle, &caps));
	READ(dsa_queue_config(handle, 0, &queue));
	READ(dsa_group_config(handle, 0, &group));
	READ(dsa_waiting_at(handle, 0, 0, &entry));
	READ(dsa_in_progress_at(handle, 0, 0, &entry));
	READ(dsa_member_at(handle, 0, 0, &entry));
	READ(dsa_entry_in(handle, 0, &entry));
	READ(dsa_batch(handle, 0, &batch));
	READ(dsa_awaited_names(handle, names, 4));
	READ(dsa_save(handle, bytes, sizeof bytes));
	READ(dsa_why(handle, &event, text, sizeof text));
	READ(dsa_reason_of(handle, &event, &reason));
	READ(dsa_queue_reason(handle, 0, 0, &reason));
	READ(dsa_history_event(handle, 0, &event));
	READ(dsa_history_queue_config(handle, 0, &queue));
	READ(dsa_history_group_config(handle, 0, &group));
}

static void read_all(const struct dsa_model *handle)
{
	read_counts(handle);
	read_rows(handle);
}

/* The bytes of a handle that are no field get a value, so that they can be compared. */
static const struct dsa_model *with_gap_filled(struct dsa_model *handle)
{
	memset((char *)handle + offsetof(struct dsa_model, holds) + 1, 0x5a, 7);
	return handle;
}

/* On a device of which a drain waits for a batch, on one that began anew, and on closed handles, one
 * of which no program may write to. */
static void reads(void)
{
	static const struct dsa_model constant = DSA_CLOSED;
	struct dsa_descriptor batch = descriptor_of(DSA_OP_BATCH, 0, 2), nothing = descriptor_of(DSA_OP_NOOP, 0, 0);
	struct dsa_model device = enabled(15);
	read_all(&constant);
	read_all(with_gap_filled(&device));
	CHECK(dsa_enqcmd(&device, 0, 0, DSA_LIMITED, 5, &batch).kind == DSA_ACCEPTED);
	CHECK(dsa_dispatch(&device, 0).kind == DSA_TAKEN);
	CHECK(dsa_fetch(&device, 0, &nothing).kind == DSA_FETCHED && dsa_start(&device, 0).kind == DSA_STARTED);
	CHECK(dsa_enqcmd(&device, 0, 0, DSA_LIMITED, 5, &nothing).kind == DSA_ACCEPTED);
	CHECK(dsa_movdir64b(&device, 0, 0, DSA_LIMITED, &nothing).kind == DSA_DROPPED);
	CHECK(dsa_command(&device, DSA_COMMAND(DSA_DRAIN_ALL, 0)).kind == DSA_ACTIVE);
	read_all(with_gap_filled(&device));
	CHECK(dsa_begin_anew(&device, 1) == DSA_ANEW_BEGUN);
	read_all(with_gap_filled(&device));
	dsa_close(&device);
	read_all(with_gap_filled(&device));
}

static void same_names(void)
{
	for (uint32_t number = 0; number < 1000; number++) {
		CHECK(strcmp(dsa_kind_name(number), in_header_kind_name(number)) == 0);
		CHECK(strcmp(dsa_fault_name(number), in_header_fault_name(number)) == 0);
		CHECK(strcmp(dsa_command_name(number), in_header_command_name(number)) == 0);
		CHECK(strcmp(dsa_status_name(number), in_header_status_name(number)) == 0);
		CHECK(strcmp(dsa_operation_name(number), in_header_operation_name(number)) == 0);
		CHECK(strcmp(dsa_load_name(number), in_header_load_name(number)) == 0);
		CHECK(strcmp(dsa_anew_result_name(number), in_header_anew_result_name(number)) == 0);
		CHECK(strcmp(dsa_reason_name(number), in_header_reason_name(number)) == 0);
	}
}

int main(void)
{
	origins();
	moves();
	reads();
	same_names();
	return 0;
}
