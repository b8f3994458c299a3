/* The object of C++: it opens and closes one device, and moves it. */
#include <cstdio>
#include <cstdlib>
#include <cstring>
#include <type_traits>
#include <utility>
#include "dsa_model.hpp"

#define CHECK(is)                                                                    \
	do {                                                                         \
		if (!(is)) {                                                         \
			std::fprintf(stderr, "%s:%d: %s\n", __FILE__, __LINE__, #is); \
			std::exit(1);                                                \
		}                                                                    \
	} while (false)

static_assert(!std::is_copy_constructible<dsa::device>::value, "it is copied");
static_assert(!std::is_copy_assignable<dsa::device>::value, "it is copied by =");
static_assert(std::is_nothrow_move_constructible<dsa::device>::value, "it does not move");
static_assert(std::is_nothrow_move_assignable<dsa::device>::value, "it does not move by =");
static_assert(sizeof(dsa::device) == sizeof(struct dsa_model), "it has more than a handle");

static dsa::device enabled()
{
	const struct dsa_caps caps = { 1, 1, 1, 8, 16, 2, 3, 20 };
	const struct dsa_queue queue = { 8, 3, 0, 1, 3, 20, 0 };
	const struct dsa_group group = { 1, 1, 4, 4 };
	dsa::device device;
	CHECK(!device.is_open() && device.poll().kind == DSA_NO_DEVICE);
	CHECK(device.open(caps, 100) == DSA_OPENED && device.is_open());
	CHECK(device.open(caps, 100) == DSA_ALREADY_OPEN);
	CHECK(device.write_queue(0, queue).kind == DSA_WRITTEN);
	CHECK(device.write_group(0, group).kind == DSA_WRITTEN);
	CHECK(device.command(DSA_COMMAND(DSA_ENABLE_DEVICE, 0)).kind == DSA_ENDED);
	CHECK(device.command(DSA_COMMAND(DSA_ENABLE_WQ, 0)).kind == DSA_ENDED);
	return device;
}

/* A batch of two No-ops, from its portal to its end. */
static void each_step(dsa::device &device)
{
	dsa::descriptor batch = dsa::descriptor(), nothing = dsa::descriptor();
	batch.bytes[7] = DSA_OP_BATCH;
	batch.bytes[32] = 2;
	CHECK(device.enqcmd(0, 0, DSA_LIMITED, 5, batch).kind == DSA_ACCEPTED);
	CHECK(device.movdir64b(0, 0, DSA_LIMITED, nothing).kind == DSA_DROPPED);
	CHECK(device.clear_error().kind == DSA_CLEARED);
	struct dsa_event poll = dsa_event();
	poll.kind = DSA_EVENT_POLL;
	char reason[32];
	CHECK(device.why(poll, reason, sizeof reason) == 20 && std::strcmp(reason, "no command is active") == 0);
	dsa::reason told = dsa::reason();
	CHECK(device.reason_of(poll, told) && told.kind == DSA_REASON_NO_COMMAND);
	CHECK(device.queue_reason(0, 0, told) && told.kind == DSA_REASON_NONE);
	CHECK(!device.queue_reason(0, 1, told));
	CHECK(device.step(poll).kind == DSA_NOTHING);
	const dsa::answer taken = device.dispatch(0);
	CHECK(taken.kind == DSA_TAKEN);
	for (int member = 0; member < 2; member++) {
		CHECK(device.fetch(0, nothing).kind == DSA_FETCHED);
		const dsa::answer started = device.start(0);
		CHECK(started.kind == DSA_STARTED);
		CHECK(device.finish(0, started.cell, started.name, DSA_SUCCESS).kind == DSA_DONE);
	}
	CHECK(device.finish(0, taken.cell, taken.name, DSA_SUCCESS).kind == DSA_DONE);
}

static void begins_anew(dsa::device &device)
{
	CHECK(!device.is_anew() && dsa_history_length(device.handle()) > 0);
	CHECK(device.begin_anew(true) == DSA_ANEW_BEGUN && device.is_anew() && device.room() == 100);
	CHECK(dsa_history_length(device.handle()) == 0 && dsa_fates_length(device.handle()) == 3);
	CHECK(device.save().empty());
	dsa::device closed, other = enabled();
	CHECK(closed.begin_anew(true) == DSA_ANEW_NO_DEVICE && !closed.is_anew() && closed.room() == DSA_NONE);
	each_step(other);
	CHECK(other.begin_anew(false) == DSA_ANEW_BEGUN && dsa_fates_length(other.handle()) == 0);
}

static void moves(dsa::device first)
{
	dsa::device second = std::move(first), third = enabled();
	CHECK(second.is_open() && !first.is_open() && dsa_fates_length(second.handle()) == 3);
	third = std::move(second);
	CHECK(third.is_open() && !second.is_open() && dsa_fates_length(third.handle()) == 3);
	dsa::device &same = third;
	third = std::move(same);
	const dsa::device &read = third;
	CHECK(read.is_open() && dsa_fates_length(read.handle()) == 3);
	std::swap(second, third);
	CHECK(second.is_open() && !third.is_open());
	second.close();
	second.close();
	CHECK(!second.is_open());
}

/* The bytes of a device make another one, which goes on from there. */
static void saved(const dsa::device &device)
{
	dsa::device other, closed;
	const std::vector<uint8_t> bytes = device.save();
	CHECK(bytes.size() == 84 + 44 * dsa_history_length(device.handle()) && closed.save().empty());
	CHECK(other.load(bytes.data(), bytes.size() - 1) == DSA_LOAD_BAD_LENGTH && !other.is_open());
	CHECK(other.load(closed.save()) == DSA_LOAD_TRUNCATED && !other.is_open());
	CHECK(other.load(bytes) == DSA_LOADED && other.save() == bytes);
	CHECK(other.load(bytes) == DSA_LOAD_ALREADY_OPEN && other.poll().kind == DSA_NOTHING);
	CHECK(dsa_fates_length(other.handle()) == 3);
}

int main()
{
	dsa::device device = enabled();
	each_step(device);
	saved(device);
	begins_anew(device);
	moves(std::move(device));
	return 0;
}
