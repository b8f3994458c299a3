/* The steps of random runs are made again on a second device, at 500 points. Both give the same answers to all reads, and then to
 * the same steps. And two new devices that receive the same calls, whatever these are, give the same answers and fates. An argument
 * divides the number of points. */
#include "runs.h"

#define POINTS 500

/* Makes the stored step at that position again. */
static struct dsa_answer again(struct dsa_model *device, const struct dsa_model *from, uint64_t position)
{
	struct dsa_answer answer = dsa_history_answer(from, position);
	struct dsa_event event;
	struct dsa_queue queue;
	struct dsa_group group;
	CHECK(dsa_history_event(from, position, &event) == 1);
	if (dsa_history_queue_config(from, position, &queue) == 1) {
		CHECK(dsa_step(device, &event).kind == DSA_BAD_ARGUMENT);
		return dsa_write_queue(device, event.queue, &queue);
	}
	if (dsa_history_group_config(from, position, &group) == 1) {
		CHECK(dsa_step(device, &event).kind == DSA_BAD_ARGUMENT);
		return dsa_write_group(device, event.group, &group);
	}
	if (answer.kind == DSA_TAKEN)
		return dsa_dispatch_from(device, event.engine, (uint16_t)answer.more);
	return dsa_step(device, &event);
}

static struct dsa_model repeated(const struct dsa_model *from)
{
	struct dsa_model device = DSA_CLOSED;
	CHECK(dsa_open(&device, &caps, dsa_capacity(from)) == DSA_OPENED);
	for (uint64_t position = 0; position < dsa_history_length(from); position++)
		CHECK(is_same(again(&device, from, position), dsa_history_answer(from, position)));
	return device;
}

/* A step that is stored on one device is made on the other. */
static void both(struct dsa_model *one, struct dsa_model *other)
{
	uint64_t steps = dsa_history_length(one);
	struct dsa_answer answer = random_step(one);
	if (dsa_history_length(one) > steps)
		CHECK(is_same(again(other, one, steps), answer));
}

/* A dispatch that names no queue is that call itself, so the device chooses the queue. */
static struct dsa_answer call(struct dsa_model *device, const struct chosen *chosen)
{
	bool is_free = chosen->event.kind == DSA_EVENT_DISPATCH && !chosen->writes && !chosen->from_queue;
	return is_free ? dsa_dispatch(device, chosen->event.engine) : make(device, chosen);
}

/* Makes one call on both devices. When they are full, and seldom before, their histories begin anew. */
static struct dsa_answer call_both(struct dsa_model *one, struct dsa_model *other)
{
	struct chosen chosen = choose();
	struct dsa_answer answer = call(one, &chosen);
	CHECK(is_same(call(other, &chosen), answer));
	note(&chosen, answer);
	if (answer.kind == DSA_FULL || below(100) == 0) {
		uint32_t keep_fates = below(2);
		CHECK(dsa_begin_anew(one, keep_fates) == DSA_ANEW_BEGUN && dsa_begin_anew(other, keep_fates) == DSA_ANEW_BEGUN);
	}
	return answer;
}

static void same_fates(const struct dsa_model *one, const struct dsa_model *other)
{
	for (uint32_t name = 0; name <= dsa_next_name(one); name++) {
		struct dsa_ending fate = dsa_fate_of(one, name), twin = dsa_fate_of(other, name);
		CHECK(memcmp(&fate, &twin, sizeof fate) == 0);
	}
}

/* Two new devices, and the same calls on both, more than one history has room for. */
static uint64_t same_calls(void)
{
	struct dsa_model one = set_up(), other = set_up();
	uint64_t taken = 0;
	for (int calls = 0; calls < 4 * MOST_STEPS; calls++)
		taken += call_both(&one, &other).kind == DSA_TAKEN;
	same_device(&one, &other);
	same_fates(&one, &other);
	dsa_close(&one);
	dsa_close(&other);
	return taken;
}

int main(int count, char **words)
{
	int points = POINTS / (count > 1 ? atoi(words[1]) : 1);
	uint64_t taken = 0;
	bool kinds[25] = { false };
	struct dsa_event none = { .kind = 0 };
	struct dsa_model closed = dsa_closed();
	CHECK(dsa_step(&closed, &none).kind == DSA_BAD_ARGUMENT);
	none.kind = DSA_EVENT_POLL;
	CHECK(dsa_step(&closed, &none).kind == DSA_NO_DEVICE);
	for (int point = 0; point < points; point++) {
		struct dsa_model one = set_up();
		for (uint32_t steps = below(MOST_STEPS); steps > 0; steps--)
			kinds[random_step(&one).kind] = true;
		struct dsa_model other = repeated(&one);
		same_device(&one, &other);
		for (int later = 0; later < LATER; later++)
			both(&one, &other);
		same_device(&one, &other);
		dsa_close(&one);
		dsa_close(&other);
	}
	for (uint32_t kind = DSA_ACCEPTED; kind <= DSA_CLEARED; kind++)
		CHECK(points < POINTS || kinds[kind]);
	for (int point = 0; point < points; point++)
		taken += same_calls();
	CHECK(taken > (uint64_t)points);
	return 0;
}
