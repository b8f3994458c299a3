/* Devices that are saved as bytes and loaded from them. A device that was saved at a point of a random run goes on as the first
 * one does, at 500 points. Of 100,000 strings of bytes that were changed each has a named error, or gives a device that saves to
 * these bytes. In half of them the checksum is made right again; none of the others is loaded. An argument divides both numbers.
 * Each string stands in a block of just its size, so that a tool sees an access past its end. */
#include "runs.h"

#define POINTS 500
#define CHANGED 100000
#define LEAST 84
#define RECORD 44
#define CHECKSUM 32
#define ROOM (LEAST + RECORD * (MOST_STEPS + LATER + 10))

/* ---- SHA-256 (FIPS 180-4) ---- */

static const uint32_t of_hash[8] = {
	0x6a09e667, 0xbb67ae85, 0x3c6ef372, 0xa54ff53a, 0x510e527f, 0x9b05688c, 0x1f83d9ab, 0x5be0cd19,
};
static const uint32_t of_round[64] = {
	0x428a2f98, 0x71374491, 0xb5c0fbcf, 0xe9b5dba5, 0x3956c25b, 0x59f111f1, 0x923f82a4, 0xab1c5ed5,
	0xd807aa98, 0x12835b01, 0x243185be, 0x550c7dc3, 0x72be5d74, 0x80deb1fe, 0x9bdc06a7, 0xc19bf174,
	0xe49b69c1, 0xefbe4786, 0x0fc19dc6, 0x240ca1cc, 0x2de92c6f, 0x4a7484aa, 0x5cb0a9dc, 0x76f988da,
	0x983e5152, 0xa831c66d, 0xb00327c8, 0xbf597fc7, 0xc6e00bf3, 0xd5a79147, 0x06ca6351, 0x14292967,
	0x27b70a85, 0x2e1b2138, 0x4d2c6dfc, 0x53380d13, 0x650a7354, 0x766a0abb, 0x81c2c92e, 0x92722c85,
	0xa2bfe8a1, 0xa81a664b, 0xc24b8b70, 0xc76c51a3, 0xd192e819, 0xd6990624, 0xf40e3585, 0x106aa070,
	0x19a4c116, 0x1e376c08, 0x2748774c, 0x34b0bcb5, 0x391c0cb3, 0x4ed8aa4a, 0x5b9cca4f, 0x682e6ff3,
	0x748f82ee, 0x78a5636f, 0x84c87814, 0x8cc70208, 0x90befffa, 0xa4506ceb, 0xbef9a3f7, 0xc67178f2,
};

static uint32_t turned(uint32_t word, int by)
{
	return word >> by | word << (32 - by);
}

static void add_block(uint32_t hash[8], const uint8_t *block)
{
	uint32_t w[64], v[8];
	memcpy(v, hash, sizeof v);
	for (int i = 0; i < 16; i++)
		w[i] = (uint32_t)block[4 * i] << 24 | (uint32_t)block[4 * i + 1] << 16 | (uint32_t)block[4 * i + 2] << 8 | block[4 * i + 3];
	for (int i = 16; i < 64; i++)
		w[i] = w[i - 16] + w[i - 7] + (turned(w[i - 15], 7) ^ turned(w[i - 15], 18) ^ w[i - 15] >> 3) +
			(turned(w[i - 2], 17) ^ turned(w[i - 2], 19) ^ w[i - 2] >> 10);
	for (int i = 0; i < 64; i++) {
		uint32_t one = v[7] + (turned(v[4], 6) ^ turned(v[4], 11) ^ turned(v[4], 25)) + ((v[4] & v[5]) ^ (~v[4] & v[6])) +
			of_round[i] + w[i];
		uint32_t other = (turned(v[0], 2) ^ turned(v[0], 13) ^ turned(v[0], 22))
			+ ((v[0] & v[1]) ^ (v[0] & v[2]) ^ (v[1] & v[2]));
		memmove(v + 1, v, 7 * sizeof v[0]);
		v[4] += one;
		v[0] = one + other;
	}
	for (int i = 0; i < 8; i++)
		hash[i] += v[i];
}

static void sha256(const uint8_t *bytes, size_t size, uint8_t sum[CHECKSUM])
{
	uint32_t hash[8];
	uint8_t end[128] = { 0 };
	size_t left = size % 64, blocks = left < 56 ? 1 : 2;
	memcpy(hash, of_hash, sizeof hash);
	for (size_t at = 0; at + 64 <= size; at += 64)
		add_block(hash, bytes + at);
	memcpy(end, bytes + size - left, left);
	end[left] = 0x80;
	for (size_t i = 0; i < 8; i++)
		end[64 * blocks - 1 - i] = (uint8_t)((uint64_t)size * 8 >> 8 * i);
	for (size_t at = 0; at < blocks; at++)
		add_block(hash, end + 64 * at);
	for (int i = 0; i < CHECKSUM; i++)
		sum[i] = (uint8_t)(hash[i / 4] >> (24 - 8 * (i % 4)));
}

/* ---- devices ---- */

static uint8_t bytes[ROOM], others[ROOM];

/* Saves to a block of just as many bytes, and from there to that place. */
static uint64_t save(const struct dsa_model *device, uint8_t *to)
{
	uint64_t size = dsa_saved_size(device);
	CHECK(size == LEAST + RECORD * dsa_history_length(device) && size <= ROOM);
	uint8_t *block = malloc(size);
	CHECK(block != NULL && dsa_save(device, block, size) == size);
	memcpy(to, block, size);
	free(block);
	return size;
}

/* Loads from a block of just as many bytes. */
static uint32_t load(struct dsa_model *device, const uint8_t *from, uint64_t size)
{
	uint8_t *block = malloc(size);
	CHECK(block != NULL);
	memcpy(block, from, size);
	uint32_t result = dsa_load(device, block, size);
	CHECK(memcmp(block, from, size) == 0);
	free(block);
	return result;
}

static struct dsa_model run(uint32_t most)
{
	struct dsa_model device = set_up();
	for (uint32_t steps = below(most); steps > 0; steps--)
		random_step(&device);
	return device;
}

static void both(struct dsa_model *one, struct dsa_model *other)
{
	struct chosen chosen = choose();
	struct dsa_answer answer = make(one, &chosen);
	CHECK(is_same(make(other, &chosen), answer));
	note(&chosen, answer);
}

/* A device that was loaded is like the one that was saved, and stays so until the history is full. */
static void goes_on(void)
{
	struct dsa_model one = run(MOST_STEPS), other = DSA_CLOSED;
	uint64_t size = save(&one, bytes);
	CHECK(load(&other, bytes, size) == DSA_LOADED && dsa_capacity(&other) == dsa_capacity(&one));
	same_device(&one, &other);
	while (dsa_history_is_full(&one) == 0)
		both(&one, &other);
	both(&one, &other);
	same_device(&one, &other);
	CHECK(save(&one, bytes) == save(&other, others) && memcmp(bytes, others, dsa_saved_size(&one)) == 0);
	dsa_close(&one);
	dsa_close(&other);
}

/* ---- places and handles ---- */

/* Nothing is written where there is too little room, and nothing behind the last byte. */
static void rooms(void)
{
	struct dsa_model device = run(MOST_STEPS), closed = DSA_CLOSED;
	uint64_t size = save(&device, bytes);
	const uint64_t few[] = { 0, 1, LEAST, size - 1 };
	uint8_t sum[CHECKSUM];
	sha256(bytes, size - CHECKSUM, sum);
	CHECK(memcmp(sum, bytes + size - CHECKSUM, CHECKSUM) == 0 && memcmp(bytes, "DSASAVED", 8) == 0);
	memset(others, 7, ROOM);
	for (size_t i = 0; i < sizeof few / sizeof few[0]; i++)
		CHECK(dsa_save(&device, others, few[i]) == size);
	CHECK(dsa_saved_size(&closed) == 0 && dsa_save(&closed, others, ROOM) == 0);
	for (size_t at = 0; at < ROOM; at++)
		CHECK(others[at] == 7);
	CHECK(dsa_save(&device, others, size) == size && memcmp(bytes, others, size) == 0 && others[size] == 7);
	CHECK(dsa_save(&device, others, size + 1) == size && others[size] == 7);
	dsa_close(&device);
}

/* A device that began anew is not saved, whatever it has stored since, and nothing is written. One that is opened after it is. */
static void begun_anew(void)
{
	struct dsa_descriptor descriptor = descriptor_of(DSA_OP_NOOP, 0, 0);
	struct dsa_model device = run(MOST_STEPS);
	uint64_t size = save(&device, bytes);
	memset(others, 7, ROOM);
	CHECK(dsa_begin_anew(&device, 1) == DSA_ANEW_BEGUN);
	for (int step = 0; step < 2; step++) {
		CHECK(dsa_saved_size(&device) == 0 && dsa_history_length(&device) == (uint64_t)step);
		CHECK(dsa_save(&device, others, ROOM) == DSA_NOT_SAVED && dsa_save(&device, others, 0) == DSA_NOT_SAVED);
		uint32_t kind = dsa_enqcmd(&device, 0, 0, DSA_LIMITED, 5, &descriptor).kind;
		CHECK(kind == DSA_ACCEPTED || kind == DSA_RETRY);
	}
	for (size_t at = 0; at < ROOM; at++)
		CHECK(others[at] == 7);
	dsa_close(&device);
	CHECK(load(&device, bytes, size) == DSA_LOADED && !dsa_is_anew(&device) && dsa_saved_size(&device) == size);
	dsa_close(&device);
}

/* A handle that has a device keeps it, whatever the bytes are. One that has none stays closed on an error. */
static void handles(void)
{
	struct dsa_model device = run(MOST_STEPS), closed = DSA_CLOSED, before = device;
	uint64_t size = save(&device, bytes);
	CHECK(load(&device, bytes, size) == DSA_LOAD_ALREADY_OPEN && load(&device, bytes, 0) == DSA_LOAD_ALREADY_OPEN);
	CHECK(device.at == before.at && device.holds && save(&device, others) == size && memcmp(bytes, others, size) == 0);
	for (uint64_t length = 0; length < size; length++) {
		CHECK(load(&closed, bytes, length) == (length < LEAST ? DSA_LOAD_TRUNCATED : DSA_LOAD_BAD_LENGTH));
		CHECK(closed.at == NULL && !closed.holds);
	}
	CHECK(load(&closed, bytes, size + 1) == DSA_LOAD_BAD_LENGTH && !closed.holds);
	dsa_close(&device);
}

/* ---- bytes that were changed ---- */

static bool met[DSA_LOAD_ALREADY_OPEN + 1];

/* These bytes have a named error, which leaves the handle closed, or they are those of the device that they give. */
static uint32_t try_bytes(const uint8_t *tried, uint64_t size)
{
	struct dsa_model device = DSA_CLOSED;
	uint32_t result = load(&device, tried, size);
	CHECK(result < DSA_LOAD_ALREADY_OPEN && result != DSA_LOAD_OUT_OF_MEMORY && strcmp(dsa_load_name(result), "?") != 0);
	met[result] = true;
	CHECK(device.holds == (result == DSA_LOADED) && (device.at != NULL) == device.holds);
	if (result == DSA_LOADED)
		CHECK(save(&device, others) == size && memcmp(tried, others, size) == 0);
	dsa_close(&device);
	return result;
}

/* Changes some bytes at one place: of the header, of a record, or anywhere. */
static void change(uint8_t *from, uint64_t size)
{
	uint64_t records = (size - LEAST) / RECORD, place = below((uint32_t)size);
	switch (below(4)) {
	case 0:
		place = below(52);
		break;
	case 1:
		place = 52 + RECORD * below((uint32_t)records) + 4 * below(11);
		break;
	}
	from[place] = below(2) == 0 ? (uint8_t)below(12) : from[place] ^ (uint8_t)(1u << below(8));
	if (below(8) == 0)
		from[place] = 0;
}

/* Another record comes at the place of one, or the last ones are gone. */
static uint64_t move_records(uint8_t *from, uint64_t size)
{
	uint32_t records = (uint32_t)(size - LEAST) / RECORD, left = records, place = below(records);
	if (below(2) == 0)
		memmove(from + 52 + RECORD * place, from + 52 + RECORD * below(records), RECORD);
	else
		left = below(records);
	for (int i = 0; i < 4; i++)
		from[48 + i] = (uint8_t)(left >> 8 * i);
	memmove(from + 52 + RECORD * left, from + size - CHECKSUM, CHECKSUM);
	return LEAST + RECORD * (uint64_t)left;
}

/* Where nothing is changed of that many bytes, one bit of them is. */
static void differ(uint8_t *tried, const uint8_t *from, uint64_t size)
{
	if (memcmp(tried, from, size) == 0)
		tried[below((uint32_t)size)] ^= (uint8_t)(1u << below(8));
}

static void changed(const uint8_t *from, uint64_t size)
{
	uint8_t tried[ROOM];
	uint64_t length = size;
	bool is_summed = below(2) == 0;
	memcpy(tried, from, size);
	if (below(4) == 0)
		length = move_records(tried, size);
	else
		change(tried, size);
	if (length == size)
		differ(tried, from, is_summed ? size - CHECKSUM : size);
	if (is_summed)
		sha256(tried, length - CHECKSUM, tried + length - CHECKSUM);
	if (below(16) == 0)
		length = below((uint32_t)length + 1);
	CHECK(length != size || memcmp(tried, from, size) != 0);
	CHECK(try_bytes(tried, length) != DSA_LOADED || is_summed);
}

int main(int count, char **words)
{
	int divisor = count > 1 ? atoi(words[1]) : 1;
	rooms();
	begun_anew();
	handles();
	for (int point = 0; point < POINTS / divisor; point++)
		goes_on();
	for (int i = 0; i < CHANGED / 200 / divisor; i++) {
		struct dsa_model device = run(16);
		uint64_t size = save(&device, bytes);
		for (int j = 0; j < 200; j++)
			changed(bytes, size);
		dsa_close(&device);
	}
	for (uint32_t result = 0; result < DSA_LOAD_ALREADY_OPEN; result++)
		CHECK(met[result] != (result == DSA_LOAD_OUT_OF_MEMORY));
	return 0;
}
