/*
 * The six functions that dsa_run.o needs beside the C library.
 *
 * The compiler of the proofs leaves them open in the object, and its own runtime defines them.
 * With this file a C compiler links the program without that runtime. The proofs assume that the
 * functions do what the comments here say, so they are written to be checked by reading. Sizes
 * are in bytes. `nm -u dsa_run.o` lists the six as rattle_*, and what it needs of the C library.
 */
#include <errno.h>
#include <stddef.h>
#include <stdint.h>
#include <stdlib.h>
#include <sys/types.h>

/* Whether there is memory, and where. The address is not null, even where there is none. */
struct tried {
	uint64_t has_memory;
	void *address;
};

struct tried rattle_alloc(size_t size, size_t alignment);
struct tried rattle_realloc(void *block, size_t kept, size_t size, size_t alignment);
void rattle_dealloc(void *block);
ssize_t rattle_arg(size_t index, uint8_t *buffer, size_t room);
int rattle_errno(void);
void rattle_set_errno(int number);

/* The largest alignment that the object asks for. malloc gives no less on this platform. */
#define MOST_ALIGNED 16

_Static_assert(_Alignof(max_align_t) >= MOST_ALIGNED, "malloc aligns for every request");

static char no_memory[MOST_ALIGNED] __attribute__((aligned(MOST_ALIGNED)));

static struct tried answer(void *block)
{
	return (struct tried){block != NULL, block != NULL ? block : no_memory};
}

/*
 * A new block of at least `size` bytes, aligned to `alignment`, or none. malloc may answer null for
 * 0 bytes, which would read as a refusal, so it is asked for one byte or more.
 */
struct tried rattle_alloc(size_t size, size_t alignment)
{
	return answer(malloc(size != 0 ? size : alignment));
}

/*
 * Makes a block one of `size` bytes, at the same place or at another, with its first `kept` bytes.
 * realloc keeps at least these. Where there is no memory, the old block stays as it was. realloc
 * may free a block that is to have 0 bytes, so it is asked for one byte or more.
 */
struct tried rattle_realloc(void *block, size_t kept, size_t size, size_t alignment)
{
	(void)kept;
	return answer(realloc(block, size != 0 ? size : alignment));
}

/* Frees a block that one of the two gave. */
void rattle_dealloc(void *block)
{
	free(block);
}

/*
 * The arguments of the program. The object defines main and does not pass them on, and glibc hands
 * them to each constructor before main. Other C libraries, as musl, do not.
 */
static int arguments;
static char **argument;

__attribute__((constructor)) static void keep_arguments(int count, char **words)
{
	arguments = count;
	argument = words;
}

/*
 * Copies the argument of this index, 0 for the program's own name, and gives its length. It is -1
 * where there is no such argument, and -2 where the buffer has no room for it.
 */
ssize_t rattle_arg(size_t index, uint8_t *buffer, size_t room)
{
	if (index >= (size_t)arguments || argument[index] == NULL)
		return -1;
	size_t length = 0;
	for (const char *byte = argument[index]; *byte != '\0'; byte++) {
		if (length == room)
			return -2;
		buffer[length++] = (uint8_t)*byte;
	}
	return (ssize_t)length;
}

/* The number of the last error of the C library in this thread. errno may be a macro. */
int rattle_errno(void)
{
	return errno;
}

/* Sets that number. The object sets it before a call whose answer alone does not show an error. */
void rattle_set_errno(int number)
{
	errno = number;
}
