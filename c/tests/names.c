/* Each constant of the header's enumerations has its own name as text, in the same letters, and no
 * other number has one. The commands and operations with names are those of the library. */
#include <ctype.h>
#include "check.h"

struct constant { uint32_t number; const char *spelling; };

#define IT(constant) { constant, #constant }

/* An array of constants for each enumeration, which c/test writes of the header. */
#include "constants.h"

/* The text without what comes before the name itself. */
static const char *without(const char *before, const char *text)
{
	CHECK(strncmp(text, before, strlen(before)) == 0);
	return text + strlen(before);
}

/* The next letter or number of a text, in capitals. */
static int next(const char **text)
{
	while (**text != '\0' && !isalnum((unsigned char)**text))
		++*text;
	return **text == '\0' ? 0 : toupper((unsigned char)*(*text)++);
}

static bool are_alike(const char *one, const char *other)
{
	int letter;
	do {
		letter = next(&one);
		if (letter != next(&other))
			return false;
	} while (letter != 0);
	return true;
}

static bool is_named(const char *name)
{
	return strcmp(name, "?") != 0;
}

static void compare(const struct constant *constants, size_t count, const char *before_constant,
                    const char *(*name_of)(uint32_t), const char *before_name)
{
	for (size_t i = 0; i < count; i++)
		CHECK(are_alike(without(before_constant, constants[i].spelling),
		                without(before_name, name_of(constants[i].number))));
}

static void count_names(const char *(*name_of)(uint32_t), size_t count)
{
	size_t named = 0;
	for (uint32_t number = 0; number < 1000; number++)
		named += is_named(name_of(number));
	CHECK(named == count && !is_named(name_of(UINT32_MAX)));
}

#define COUNT(constants) (sizeof constants / sizeof constants[0])
#define COMPARE(constants, before_constant, name_of, before_name) \
	do { \
		compare(constants, COUNT(constants), before_constant, name_of, before_name); \
		count_names(name_of, COUNT(constants)); \
	} while (0)

/* A closed handle refuses a word that is no command. */
static void ask_for_commands(void)
{
	struct dsa_model closed = DSA_CLOSED;
	for (uint32_t number = 0; number < 32; number++) {
		struct dsa_answer answer = dsa_command(&closed, DSA_COMMAND(number, 0));
		CHECK(answer.kind == (is_named(dsa_command_name(number)) ? DSA_NO_DEVICE : DSA_REFUSED));
	}
}

static void ask_for_operations(void)
{
	const struct dsa_limits limits = { 3, 20 };
	for (uint32_t code = 0; code < 256; code++) {
		struct dsa_descriptor descriptor = descriptor_of((uint8_t)code, 0, 2);
		bool is_bad = dsa_check(&descriptor, &limits, 0) == DSA_STATUS_BAD_OPCODE;
		CHECK(is_bad != is_named(dsa_operation_name(code)));
	}
}

int main(void)
{
	COMPARE(kind_constants, "DSA_", dsa_kind_name, "");
	COMPARE(fault_constants, "DSA_FAULT_", dsa_fault_name, "");
	COMPARE(command_number_constants, "DSA_", dsa_command_name, "");
	COMPARE(status_constants, "DSA_STATUS_", dsa_status_name, "DSA_COMP_");
	COMPARE(operation_constants, "DSA_OP_", dsa_operation_name, "DSA_OPCODE_");
	compare(load_result_constants, 1, "DSA_", dsa_load_name, "");
	compare(load_result_constants + 1, COUNT(load_result_constants) - 1, "DSA_LOAD_", dsa_load_name, "");
	count_names(dsa_load_name, COUNT(load_result_constants));
	COMPARE(anew_result_constants, "DSA_ANEW_", dsa_anew_result_name, "");
	COMPARE(reason_kind_constants, "DSA_REASON_", dsa_reason_name, "");
	ask_for_commands();
	ask_for_operations();
	return 0;
}
