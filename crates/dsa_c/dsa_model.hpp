/* dsa_model.hpp: a device of dsa_model.h as an object of C++11, which closes itself.
 *
 * Each step is a member with the arguments and the answer of its call. save() gives the device as
 * bytes. handle() is for all other calls. What dsa_model.h asks of a caller holds here too. */
#ifndef DSA_MODEL_HPP
#define DSA_MODEL_HPP

#include <vector>
#include "dsa_model.h"

namespace dsa {

using answer = struct dsa_answer;
using descriptor = struct dsa_descriptor;
using reason = struct dsa_reason;

/* A device, or none. It is moved and never copied. One that was moved from has none. */
class device {
public:
	device() noexcept : at(dsa_closed()) {}
	device(device &&other) noexcept : at(other.at) { other.at = dsa_closed(); }
	device(const device &) = delete;
	~device() { dsa_close(&at); }

	device &operator=(const device &) = delete;
	device &operator=(device &&other) noexcept
	{
		const struct dsa_model moved = other.at;
		other.at = dsa_closed();
		dsa_close(&at);
		at = moved;
		return *this;
	}

	/* An enum dsa_open_result, as of dsa_open. */
	uint32_t open(const struct dsa_caps &caps, uint64_t capacity) noexcept
	{ return dsa_open(&at, &caps, capacity); }
	/* An enum dsa_load_result, as of dsa_load. */
	uint32_t load(const uint8_t *bytes, uint64_t size) noexcept
	{ return dsa_load(&at, bytes, size); }
	uint32_t load(const std::vector<uint8_t> &bytes) noexcept
	{
		const uint8_t none = 0;
		return dsa_load(&at, bytes.empty() ? &none : bytes.data(), bytes.size());
	}
	/* The bytes of the device, as of dsa_save; none where there is no device, its history began anew
	 * (is_anew), or dsa_save is refused memory. */
	std::vector<uint8_t> save() const
	{
		uint8_t none = 0;
		std::vector<uint8_t> bytes(dsa_saved_size(&at));
		if (dsa_save(&at, bytes.empty() ? &none : bytes.data(), bytes.size()) == DSA_NO_MEMORY)
			bytes.clear();
		return bytes;
	}
	void close() noexcept { dsa_close(&at); }
	/* An enum dsa_anew_result, as of dsa_begin_anew. */
	uint32_t begin_anew(bool keep_fates) noexcept { return dsa_begin_anew(&at, keep_fates); }
	bool is_anew() const noexcept { return dsa_is_anew(&at) != 0; }
	uint64_t room() const noexcept { return dsa_room(&at); }
	bool is_open() const noexcept { return dsa_capacity(&at) != DSA_NONE; }
	struct dsa_model *handle() noexcept { return &at; }
	const struct dsa_model *handle() const noexcept { return &at; }

	answer enqcmd(uint16_t client, uint16_t queue, uint32_t portal, uint32_t pasid,
	              const descriptor &from) noexcept
	{ return dsa_enqcmd(&at, client, queue, portal, pasid, &from); }
	answer movdir64b(uint16_t client, uint16_t queue, uint32_t portal,
	                 const descriptor &from) noexcept
	{ return dsa_movdir64b(&at, client, queue, portal, &from); }
	answer dispatch(uint16_t engine) noexcept { return dsa_dispatch(&at, engine); }
	answer dispatch_from(uint16_t engine, uint16_t queue) noexcept
	{ return dsa_dispatch_from(&at, engine, queue); }
	answer fetch(uint16_t engine, const descriptor &from) noexcept
	{ return dsa_fetch(&at, engine, &from); }
	answer start(uint16_t engine) noexcept { return dsa_start(&at, engine); }
	answer finish(uint16_t engine, uint32_t cell, uint32_t name, uint32_t outcome) noexcept
	{ return dsa_finish(&at, engine, cell, name, outcome); }
	answer command(uint32_t word) noexcept { return dsa_command(&at, word); }
	answer poll() noexcept { return dsa_poll(&at); }
	answer write_queue(uint16_t queue, const struct dsa_queue &config) noexcept
	{ return dsa_write_queue(&at, queue, &config); }
	answer write_group(uint16_t group, const struct dsa_group &config) noexcept
	{ return dsa_write_group(&at, group, &config); }
	answer clear_error() noexcept { return dsa_clear_error(&at); }
	answer step(const struct dsa_event &event) noexcept { return dsa_step(&at, &event); }

	/* Why a step of the event would be answered as it would, as of dsa_why. */
	uint64_t why(const struct dsa_event &event, char *buffer, uint64_t size) const noexcept
	{ return dsa_why(&at, &event, buffer, size); }
	/* The same as a kind and its numbers, as of dsa_reason_of; whether there is one. */
	bool reason_of(const struct dsa_event &event, reason &told) const noexcept
	{ return dsa_reason_of(&at, &event, &told) != 0; }
	/* Why the engine does not take from the queue, as of dsa_queue_reason. */
	bool queue_reason(uint16_t engine, uint16_t queue, reason &told) const noexcept
	{ return dsa_queue_reason(&at, engine, queue, &told) != 0; }

private:
	struct dsa_model at;
};

}

#endif
