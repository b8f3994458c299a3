/* dsa_model.h: a proved model of the shared part of the Intel Data Streaming Accelerator, for C and
 * C++.
 *
 * A program steps a device in place of the hardware: it writes descriptors to portals, takes the
 * part of the engines, and issues commands. Each step is one call, and its answer says what the
 * device did. What a call does to the device, and which answer it gives, is proved; docs/C.md says
 * what is proved of each call and what is trusted.
 *
 * What the caller keeps to, since nothing checks it:
 *   - No pointer is null, but that of dsa_close may be. Only these calls write to a handle; struct
 *     dsa_model says where it is closed, and how it is moved.
 *   - Calls on one handle come one at a time, reads too: threads that share one take a lock around
 *     each call. Different handles are independent.
 *   - dsa_open, dsa_load, dsa_save, dsa_close, dsa_begin_anew and dsa_why take and free memory:
 *     they are not for signal handlers, nor for the child of a fork of a process with threads. The
 *     other calls take no memory, so a handler may make them, unless it interrupts a call on the
 *     same handle.
 * All numbers may be wrong: a queue, group or engine that the device does not have, a portal, an
 * outcome, a word. They are answered.
 *
 * Link with libdsa_model.a or libdsa_model.so, and the C library alone. */
#ifndef DSA_MODEL_H
#define DSA_MODEL_H

#include <stdbool.h>
#include <stddef.h>
#include <stdint.h>

#ifdef __cplusplus
extern "C" {
#endif

/* The version of this header. DSA_VERSION is MAJOR * 1000000 + MINOR * 1000 + PATCH. */
#define DSA_VERSION_MAJOR 0u
#define DSA_VERSION_MINOR 2u
#define DSA_VERSION_PATCH 0u
#define DSA_VERSION 2000u
#define DSA_VERSION_TEXT "0.2.0"

/* A handle: a device, or none. Its fields are the library's own.
 *   - It is closed, which means that it has no device, where all its bytes are zero: by DSA_CLOSED,
 *     by dsa_closed(), or in memory that was cleared.
 *   - It may be moved: its 16 bytes are copied to another place, as by an assignment or a return,
 *     and the device goes with them. The bytes at the old place are dead then. No call may take
 *     them, not even dsa_close, until dsa_closed() is written there. So a handle is never used at
 *     two places, and a device is closed once. */
struct dsa_model {
	void *at;
	bool holds;
};
#define DSA_CLOSED { NULL, false }

/* ---- what goes in ---- */

/* The 64 bytes of a descriptor, as the hardware reads them. */
struct dsa_descriptor {
	uint8_t bytes[64];
};

/* What the device has. */
struct dsa_caps {
	uint16_t queues;         /* work queues, 1 to 64 */
	uint16_t groups;         /* 1 to 8 */
	uint16_t engines;        /* 1 to 64 */
	uint16_t total_size;     /* entries that all queues together may hold, 1 to 4096 */
	uint16_t read_buffers;   /* 1 to 255 */
	uint16_t slots;          /* submitted descriptors that an engine may have in progress, 1 to 16 */
	uint8_t max_batch_shift; /* a batch has at most 2 to this many members, 1 to 10 */
	uint8_t max_xfer_shift;  /* a transfer has at most 2 to this many bytes, 0 to 31 */
};

/* The configuration of a work queue. */
struct dsa_queue {
	uint16_t size;
	uint16_t threshold;      /* of the limited portal; a dedicated queue ignores it */
	uint8_t dedicated;       /* 0 or 1 */
	uint8_t priority;        /* 1 to 15 */
	uint8_t max_batch_shift;
	uint8_t max_xfer_shift;
	uint32_t pasid;          /* of a dedicated queue; 20 bits */
};

/* The configuration of a group. */
struct dsa_group {
	uint64_t queues;         /* bit k for queue k */
	uint64_t engines;        /* bit k for engine k */
	uint16_t reserved;       /* read buffers that are kept for the group */
	uint16_t allowed;        /* read buffers that it may have in use */
};

/* What a queue allows its descriptors, as powers of two. */
struct dsa_limits {
	uint8_t max_batch_shift;
	uint8_t max_xfer_shift;
};

enum dsa_portal { DSA_LIMITED = 0, DSA_UNLIMITED = 1 };
enum dsa_outcome { DSA_SUCCESS = 0, DSA_PAGE_FAULT = 1 };

/* The operation of a descriptor, its byte 7. Other codes are not supported: their status is
 * DSA_STATUS_BAD_OPCODE. */
enum dsa_operation {
	DSA_OP_NOOP = 0x00, DSA_OP_BATCH = 0x01, DSA_OP_DRAIN = 0x02, DSA_OP_MEMMOVE = 0x03,
	DSA_OP_MEMFILL = 0x04, DSA_OP_COMPARE = 0x05
};

/* The word of a command, to be written by dsa_command: its number and an operand of 20 bits. */
#ifdef __cplusplus
#define DSA_COMMAND(number, operand) \
	((static_cast<uint32_t>(number) << 20) | (static_cast<uint32_t>(operand) & 0xfffffu))
#else
#define DSA_COMMAND(number, operand) \
	(((uint32_t)(number) << 20) | ((uint32_t)(operand) & 0xfffffu))
#endif
enum dsa_command_number {
	DSA_ENABLE_DEVICE = 1, DSA_DISABLE_DEVICE, DSA_DRAIN_ALL, DSA_ABORT_ALL, DSA_RESET_DEVICE,
	DSA_ENABLE_WQ, DSA_DISABLE_WQ, DSA_DRAIN_WQ, DSA_ABORT_WQ, DSA_RESET_WQ, DSA_DRAIN_PASID, DSA_ABORT_PASID
};

/* ---- what comes out ---- */

enum dsa_kind {
	DSA_NO_DEVICE = 0,    /* the handle has none */
	DSA_ACCEPTED = 1,     /* name, cell: the entry stands last in its queue */
	DSA_RETRY = 2,        /* more: enum dsa_cause; ENQCMD is to come again (zero flag set) */
	DSA_DROPPED = 3,      /* more: enum dsa_cause; MOVDIR64B wrote what no queue took */
	DSA_TAKEN = 4,        /* name, cell: the entry runs now; more: its queue */
	DSA_IDLE = 5,         /* no queue, or not this one, has an entry that the engine may take */
	DSA_FETCHED = 6,      /* name, cell: the member stands last */
	DSA_NO_BATCH = 7,
	DSA_ALL_FETCHED = 8,
	DSA_STARTED = 9,      /* name, cell: the member runs now */
	DSA_FENCE_WAIT = 10,
	DSA_NO_BUFFERS = 11,
	DSA_ABANDONED = 12,   /* more: how many members ended behind a fence */
	DSA_NOTHING = 13,     /* no member, no command, no error, no such step */
	DSA_DONE = 14,        /* more: the completion status, enum dsa_status */
	DSA_NOT_READY = 15,   /* a batch whose members have not all ended, or a Drain that waits */
	DSA_GONE = 16,        /* no running entry of the engine has that cell and name */
	DSA_ENDED = 17,       /* more: how many entries were aborted; the command is over */
	DSA_ACTIVE = 18,      /* the command waits */
	DSA_REFUSED = 19,     /* more: enum dsa_fault; nothing changed */
	DSA_FINISHED = 20,    /* the command that waited is over */
	DSA_WRITTEN = 21,
	DSA_CLEARED = 22,     /* name: queue; cell: 1 if more were dropped since; more: enum dsa_cause */
	DSA_FULL = 23,        /* the history has no room; nothing changed */
	DSA_BAD_ARGUMENT = 24 /* a portal, outcome or 0-or-1 that is none, or no event; nothing changed */
};
enum dsa_cause { DSA_AT_LIMIT = 1, DSA_NOT_ENABLED = 2, DSA_WRONG_KIND = 3 };

/* Why a command or a write of a configuration was refused; docs/MODEL.md, "Faults". */
enum dsa_fault {
	DSA_FAULT_SIZES_TOO_LARGE = 1, DSA_FAULT_TWO_GROUPS = 2, DSA_FAULT_RESERVED_TOO_MANY = 3,
	DSA_FAULT_ALLOWED_OUT_OF_RANGE = 4, DSA_FAULT_GROUP_WITHOUT_ENGINE = 5,
	DSA_FAULT_GROUP_WITHOUT_QUEUE = 6, DSA_FAULT_SIZE_ZERO = 7, DSA_FAULT_PRIORITY_ZERO = 8,
	DSA_FAULT_THRESHOLD_ZERO = 9, DSA_FAULT_THRESHOLD_ABOVE_SIZE = 10,
	DSA_FAULT_BATCH_TOO_LARGE = 11, DSA_FAULT_NO_GROUP = 12, DSA_FAULT_BAD_COMMAND = 13,
	DSA_FAULT_BAD_QUEUE = 14, DSA_FAULT_LOCKED = 15, DSA_FAULT_WRONG_STATE = 16,
	DSA_FAULT_BUSY = 17, DSA_FAULT_PRIORITY_TOO_LARGE = 18, DSA_FAULT_TRANSFER_TOO_LARGE = 19,
	DSA_FAULT_BAD_INDEX = 20
};

/* The completion status of an entry, by its name in linux/idxd.h without DSA_COMP_. NONE is the
 * status of no entry: dsa_check gives it where no check fails. */
enum dsa_status {
	DSA_STATUS_NONE = 0x00, DSA_STATUS_SUCCESS = 0x01, DSA_STATUS_PAGE_FAULT_NOBOF = 0x03,
	DSA_STATUS_BATCH_FAIL = 0x05, DSA_STATUS_BAD_OPCODE = 0x10, DSA_STATUS_INVALID_FLAGS = 0x11,
	DSA_STATUS_XFER_ERANGE = 0x13, DSA_STATUS_DESC_CNT_ERANGE = 0x14
};

/* An answer. Numbers that its kind does not speak of are 0. */
struct dsa_answer {
	uint32_t kind; /* enum dsa_kind */
	uint32_t name;
	uint32_t cell;
	uint32_t more;
};

enum dsa_ending_kind { DSA_NOT_ENDED = 0, DSA_COMPLETED = 1, DSA_ABORTED = 2, DSA_BEHIND_FENCE = 3 };

/* How an entry ended. */
struct dsa_ending {
	uint32_t kind;   /* enum dsa_ending_kind; the rest is 0 with DSA_NOT_ENDED: no such row */
	uint32_t name;
	uint32_t parent; /* the name of its batch, UINT32_MAX where it was submitted */
	uint32_t number; /* enum dsa_status, or the number of the command that aborted it */
};

/* The phase of the device or of a queue. */
enum dsa_phase_number { DSA_OFF = 0, DSA_ON = 1, DSA_STOPPING = 2 };

/* An entry: a descriptor that the device holds. Its cell and name are its ticket, which dsa_finish
 * takes. */
struct dsa_entry {
	uint32_t name;
	uint32_t cell;
	uint32_t parent;   /* the name of its batch, UINT32_MAX where it was submitted */
	uint32_t pasid;
	uint32_t flags;    /* 24 bits */
	uint32_t size;     /* bytes; in a Batch the number of its members */
	uint16_t queue;    /* that it, or its batch, was submitted to */
	uint8_t operation; /* enum dsa_operation, or another code */
	uint8_t running;   /* 0 or 1 */
};

/* What is noted of the batch that an engine works on. */
struct dsa_batch {
	uint32_t name;
	uint32_t count;    /* of members that it has */
	uint32_t fetched;  /* of these so far */
	uint8_t failed;    /* 1: a member was not successful */
	uint8_t closed;    /* 1: the rest was abandoned behind a fence */
};

enum dsa_event_kind {
	DSA_EVENT_ENQCMD = 1,       /* pasid, and the fields of the next kind */
	DSA_EVENT_MOVDIR64B = 2,    /* client, queue, portal; operation, flags, size, descriptor_pasid */
	DSA_EVENT_DISPATCH = 3,     /* engine */
	DSA_EVENT_FETCH = 4,        /* engine; operation, flags, size, descriptor_pasid */
	DSA_EVENT_START = 5,        /* engine */
	DSA_EVENT_FINISH = 6,       /* engine, name, cell, outcome */
	DSA_EVENT_COMMAND = 7,      /* command, operand */
	DSA_EVENT_POLL = 8,
	DSA_EVENT_WRITE_QUEUE = 9,  /* queue */
	DSA_EVENT_WRITE_GROUP = 10, /* group */
	DSA_EVENT_CLEAR_ERROR = 11
};

/* An event of the history: the call that was made. Numbers that its kind does not name are 0. Of a
 * descriptor it has all that the model reads. dsa_history_queue_config and dsa_history_group_config
 * give the configuration that was written. */
struct dsa_event {
	uint32_t kind;      /* enum dsa_event_kind */
	uint32_t name;
	uint32_t cell;
	uint32_t pasid;     /* as ENQCMD was given it */
	uint32_t flags;
	uint32_t size;
	uint32_t operand;   /* or 0; DSA_COMMAND(command, operand) is a word of the command */
	uint32_t descriptor_pasid; /* the PASID in the descriptor's bytes, which has no effect */
	uint16_t client;
	uint16_t queue;
	uint16_t group;
	uint16_t engine;
	uint8_t operation;
	uint8_t portal;     /* enum dsa_portal */
	uint8_t outcome;    /* enum dsa_outcome */
	uint8_t command;    /* enum dsa_command_number */
};

/* The list in which an entry is: a queue, what is in progress on an engine, or its batch. */
enum dsa_list {
	DSA_LIST_NONE = 0,
	DSA_LIST_QUEUE = 1, /* queue */
	DSA_LIST_ENGINE = 2, /* engine */
	DSA_LIST_BATCH = 3 /* engine */
};

/* Why a step would be answered as it would: the kinds by the step that they are of, each with its
 * fields. Some have more:
 *   - read buffers: the entry needs needed; group uses count of limit, all groups use in_use of
 *     buffers, and kept are kept for other groups;
 *   - what a command waits for: count entries; name is the first of them, and list where it is. */
enum dsa_reason_kind {
	DSA_REASON_NONE = 0, /* no reason: the step would do what it asks for */
	DSA_REASON_HISTORY_FULL = 1, /* limit: the steps that the history has room for */
	DSA_REASON_NAMES_SHORT = 2, /* limit: the same, since no more names were left */
	DSA_REASON_NO_SUCH_QUEUE = 3, /* queue: the device has none of that number */
	DSA_REASON_NO_SUCH_ENGINE = 4, /* engine: the device has none of that number */
	/* a submission */
	DSA_REASON_QUEUE_NOT_ON = 5, /* queue, phase, device_phase */
	DSA_REASON_QUEUE_DEDICATED = 6, /* queue; it takes MOVDIR64B */
	DSA_REASON_QUEUE_SHARED = 7, /* queue; it takes ENQCMD */
	DSA_REASON_PORTAL_AT_LIMIT = 8, /* queue, portal, count: entries in the queue, limit */
	/* a dispatch */
	DSA_REASON_ENGINE_IDLE = 9, /* engine; dsa_queue_reason says why of each queue of its group */
	DSA_REASON_ENGINE_WITHOUT_GROUP = 10, /* engine; of a start, too */
	DSA_REASON_ENGINE_WITHOUT_QUEUE = 11, /* engine; its group has no queue */
	/* a queue of an idle engine; name is the entry at its front */
	DSA_REASON_QUEUE_EMPTY = 12, /* queue */
	DSA_REASON_NO_SLOT = 13, /* queue, name, count of limit slots are in use */
	DSA_REASON_FRONT_LACKS_BUFFERS = 14, /* queue, name and read buffers */
	DSA_REASON_OTHER_BATCH = 15, /* queue, name: a batch, other: the batch that the engine works on */
	DSA_REASON_OTHER_DRAIN = 16, /* queue, name: a Drain, other: the Drain in progress on the engine */
	/* a fetch */
	DSA_REASON_NO_BATCH = 17, /* engine */
	DSA_REASON_ALL_FETCHED = 18, /* engine, count of limit members were fetched */
	DSA_REASON_BATCH_CLOSED = 19, /* the same, and the rest is abandoned */
	/* a start; name is the member that waits */
	DSA_REASON_NO_MEMBER = 20, /* engine; none waits */
	DSA_REASON_FENCE_WAITS = 21, /* name, other: the first entry that it waits for */
	DSA_REASON_FENCE_FAILED = 22, /* name, other: it failed, count: those that end unstarted */
	DSA_REASON_FENCE_FAILED_FORGOTTEN = 23, /* name, count: the fate of other was forgotten */
	DSA_REASON_MEMBER_LACKS_BUFFERS = 24, /* read buffers */
	/* a finish */
	DSA_REASON_CELL_EMPTY = 25, /* the cell of the ticket holds no entry */
	DSA_REASON_CELL_OF_OTHER = 26, /* other: the entry that the cell of the ticket holds by now */
	DSA_REASON_ELSEWHERE = 27, /* list: where the entry is */
	DSA_REASON_NOT_STARTED = 28, /* the entry is a member that has not started */
	DSA_REASON_MEMBERS_LEFT = 29, /* count: members of the batch that have not ended */
	DSA_REASON_STILL_TO_FETCH = 30, /* engine, count of limit members were fetched */
	DSA_REASON_DRAIN_WAITS = 31, /* other: the first entry that the Drain waits for */
	DSA_REASON_COMPLETED = 32, /* name: the entry has ended, status */
	DSA_REASON_ABORTED = 33, /* name: the entry has ended, command: what aborted it */
	DSA_REASON_ABANDONED = 34, /* name: the entry has ended behind a fence */
	DSA_REASON_NO_SUCH_NAME = 35, /* name: no entry has had it */
	/* a finish that ends the entry without success */
	DSA_REASON_NOT_SUPPORTED = 36, /* operation: no enum dsa_operation, or none for a batch */
	DSA_REASON_FENCE_OUTSIDE = 37, /* a fence outside a batch */
	DSA_REASON_SIZE_OUTSIDE = 38, /* queue, count: the size is 0, or above 2 to the power of shift */
	DSA_REASON_COUNT_OUTSIDE = 39, /* queue, count: below 2, or above 2 to the power of shift */
	DSA_REASON_MEMBERS_FAILED = 40, /* count, name: the first of them, status: that of the first */
	DSA_REASON_MEMBERS_FAILED_FORGOTTEN = 41, /* the fates of all of them were forgotten */
	DSA_REASON_PAGE_FAULT = 42,
	/* a command */
	DSA_REASON_COMMAND_ACTIVE = 43, /* command, operand, and what it waits for: the active one */
	DSA_REASON_COMMAND_OVER = 44, /* command, operand: the active one, which no poll has reported */
	DSA_REASON_NO_QUEUE_NAMED = 45,
	DSA_REASON_WRONG_QUEUE_PHASE = 46, /* queue, phase */
	DSA_REASON_WRONG_DEVICE_PHASE = 47, /* device_phase */
	DSA_REASON_WOULD_REMOVE = 48, /* count: entries that an abort or a reset would remove */
	DSA_REASON_WOULD_WAIT = 49, /* what a drain or a disable would wait for */
	/* a poll, and an error that is to be cleared */
	DSA_REASON_NO_COMMAND = 50, /* none is active */
	DSA_REASON_COMMAND_WAITS = 51, /* what the active one waits for */
	DSA_REASON_NOTHING_NOTED = 52, /* no error is noted */
	/* the check of Enable Device, or of Enable WQ */
	DSA_REASON_GROUP_NAMES_NO_QUEUE = 53, /* group, queue: named there, limit: queues of the device */
	DSA_REASON_GROUP_NAMES_NO_ENGINE = 54, /* group, engine: named there, limit: engines of it */
	DSA_REASON_SIZES_TOO_LARGE = 55, /* count: the sizes of all queues together, limit */
	DSA_REASON_QUEUE_IN_TWO_GROUPS = 56, /* queue, group, other: the second group */
	DSA_REASON_ENGINE_IN_TWO_GROUPS = 57, /* engine, group, other: the second group */
	DSA_REASON_RESERVED_TOO_MANY = 58, /* count: read buffers that all groups reserve, limit */
	DSA_REASON_ALLOWED_BELOW_RESERVED = 59, /* group, count: what it allows, limit: what it reserves */
	DSA_REASON_ALLOWED_ABOVE_REST = 60, /* group, count: what it allows, limit: what others leave */
	DSA_REASON_ALLOWED_BELOW_NEED = 61, /* group, count: what it allows, limit: what may be needed */
	DSA_REASON_GROUP_WITHOUT_ENGINE = 62, /* group; it has a queue */
	DSA_REASON_GROUP_WITHOUT_QUEUE = 63, /* group; it has an engine */
	DSA_REASON_SIZE_ZERO = 64, /* queue */
	DSA_REASON_PRIORITY_ZERO = 65, /* queue */
	DSA_REASON_PRIORITY_TOO_LARGE = 66, /* queue, count: the priority, limit */
	DSA_REASON_THRESHOLD_ZERO = 67, /* queue */
	DSA_REASON_THRESHOLD_ABOVE_SIZE = 68, /* queue, count: the threshold, limit: the size */
	DSA_REASON_BATCH_TOO_LARGE = 69, /* queue, count: its batch shift, limit: the device's */
	DSA_REASON_TRANSFER_TOO_LARGE = 70, /* queue, count: its transfer shift, limit: the device's */
	DSA_REASON_QUEUE_WITHOUT_GROUP = 71 /* queue */
};

/* A reason. Fields that its kind does not name are 0. A list comes with its queue or its engine.
 * What has more than 32 bits is UINT32_MAX. */
struct dsa_reason {
	uint32_t kind;         /* enum dsa_reason_kind */
	uint32_t queue;
	uint32_t group;
	uint32_t engine;
	uint32_t list;         /* enum dsa_list */
	uint32_t name;         /* of an entry */
	uint32_t other;        /* the name of another entry, or the number of another group */
	uint32_t count;        /* how many there are, or the number that is out of bounds */
	uint32_t limit;        /* how many there may be, or the bound */
	uint32_t needed;       /* read buffers that the entry needs */
	uint32_t in_use;       /* read buffers that all groups use */
	uint32_t buffers;      /* read buffers that the device has */
	uint32_t kept;         /* read buffers that are kept for other groups */
	uint32_t phase;        /* enum dsa_phase_number, of the queue */
	uint32_t device_phase; /* enum dsa_phase_number, of the device */
	uint32_t portal;       /* enum dsa_portal */
	uint32_t command;      /* enum dsa_command_number */
	uint32_t operand;
	uint32_t operation;
	uint32_t status;       /* enum dsa_status */
	uint32_t shift;
};

/* What dsa_open came to. From DSA_BAD_QUEUES on: this field of struct dsa_caps is the first that is
 * not within its limits. */
enum dsa_open_result {
	DSA_OPENED = 0,
	DSA_BAD_CAPACITY = 2,      /* the capabilities are good, and the capacity is above 1048576 */
	DSA_BAD_STORE = 3,         /* this does not come */
	DSA_OUT_OF_MEMORY = 4,     /* none of the others stands */
	DSA_ALREADY_OPEN = 5,      /* the handle has a device, which comes before all of these */
	DSA_BAD_QUEUES = 6, DSA_BAD_GROUPS = 7, DSA_BAD_ENGINES = 8, DSA_BAD_TOTAL_SIZE = 9,
	DSA_BAD_READ_BUFFERS = 10, DSA_BAD_SLOTS = 11, DSA_BAD_MAX_BATCH_SHIFT = 12, DSA_BAD_MAX_XFER_SHIFT = 13
};

/* What dsa_load came to: the first of these causes that stands. */
enum dsa_load_result {
	DSA_LOADED = 0,
	DSA_LOAD_TRUNCATED = 1,     /* a saved device has more bytes */
	DSA_LOAD_BAD_MAGIC = 2,     /* a saved device begins with another word */
	DSA_LOAD_BAD_VERSION = 3,   /* the version of the format is not 1 */
	DSA_LOAD_BAD_LENGTH = 4,    /* there are more bytes, or fewer, than the number of steps says */
	DSA_LOAD_BAD_CHECKSUM = 5,  /* the bytes have another checksum */
	DSA_LOAD_BAD_CAPS = 6,      /* dsa_open would refuse the capabilities, or the capacity */
	DSA_LOAD_BAD_CAPACITY = 7,
	DSA_LOAD_OUT_OF_MEMORY = 8,
	DSA_LOAD_BAD_EVENT = 9,     /* a record is no event */
	DSA_LOAD_BAD_STEP = 10,     /* the device makes another step than that of a record */
	DSA_LOAD_ALREADY_OPEN = 11  /* the handle has a device, which comes before all of these */
};

enum dsa_anew_result {
	DSA_ANEW_BEGUN = 0, DSA_ANEW_NO_DEVICE = 1, DSA_ANEW_NO_MEMORY = 2
};

/* Where a number is not to be had, and where dsa_why or dsa_save is refused memory. */
#define DSA_NO_NUMBER UINT32_MAX
#define DSA_NONE UINT64_MAX
#define DSA_NO_MEMORY (UINT64_MAX - 1)
/* Where dsa_save does not save a device, since its history began anew. */
#define DSA_NOT_SAVED (UINT64_MAX - 2)

/* ---- the device ---- */

/* Opens a device that is off, with nothing configured; its history has room for that many steps, at
 * most 1048576. Gives an enum dsa_open_result: the first fault that stands, of wrong capabilities
 * the first one of them, or DSA_OUT_OF_MEMORY where none does. DSA_BAD_STORE does not come. On
 * anything but DSA_OPENED the handle is as it was. The memory for all steps is taken here, in
 * proportion to the capacity and the cells. */
uint32_t dsa_open(struct dsa_model *handle, const struct dsa_caps *caps, uint64_t capacity);

/* How many bytes dsa_open asks malloc for in all, where it opens a device; 0 where it would refuse
 * the capabilities or the capacity. */
uint64_t dsa_size(const struct dsa_caps *caps, uint64_t capacity);

/* How many cells such a device has, and how many lists; 0 where dsa_open would refuse the
 * capabilities. Entries stand in cells, numbered from 0, and a cell has one at a time: a program
 * may keep what is its own of an entry, as all 64 bytes, by cell. There is a list for each queue
 * and two for each engine. */
uint32_t dsa_cell_count(const struct dsa_caps *caps);
uint32_t dsa_list_count(const struct dsa_caps *caps);

/* Closes the device and frees its memory. On a closed handle, and on NULL, it does nothing. */
void dsa_close(struct dsa_model *handle);

/* Begins the history anew, so that there is room for steps again: no step is stored then, and
 * positions count from 0. All else stays: what is configured, held and active, the tickets, and the
 * names, which go on. `keep_fates` says whether the fates of what ended are kept; where it is 0
 * they are forgotten. Gives an enum dsa_anew_result: DSA_ANEW_NO_MEMORY where memory for the fates
 * to come was refused, DSA_ANEW_NO_DEVICE on a closed handle. On anything but DSA_ANEW_BEGUN
 * nothing changed. */
uint32_t dsa_begin_anew(struct dsa_model *handle, uint32_t keep_fates);

/* ---- snapshots: a device as bytes, and a device from bytes ---- */

/* How many bytes the device is saved to: 84, and 44 for each stored step. 0 on a closed handle, and
 * where the history began anew: such a device is not saved. */
uint64_t dsa_saved_size(const struct dsa_model *handle);
/* Saves the device: what it has, and all its steps (docs/LIBRARY.md has the format). Gives that
 * number of bytes, and writes them to the buffer if they all fit into `size` bytes; else it writes
 * nothing. 0: the handle is closed. DSA_NOT_SAVED: the history began anew, so that it is without
 * the steps before. DSA_NO_MEMORY: memory was refused. With these three nothing was written. It
 * takes as much memory as it writes, and gives it back. The buffer is not null, even where `size`
 * is 0. */
uint64_t dsa_save(const struct dsa_model *handle, uint8_t *buffer, uint64_t size);
/* Opens the device that these bytes save, all of them: it makes their steps again, and equals the
 * device that was saved. So all reads give what they gave, and it goes on from there. Gives an enum
 * dsa_load_result. On anything but DSA_LOADED the handle is as it was. It takes as much memory as
 * dsa_open. The bytes are not null, even where `size` is 0. */
uint32_t dsa_load(struct dsa_model *handle, const uint8_t *bytes, uint64_t size);

/* ---- steps: each gives one of the kinds of answer (enum dsa_kind) that are named above it ---- */

/* A client writes a descriptor to a portal (enum dsa_portal): by ENQCMD, under its PASID, or by
 * MOVDIR64B. */
/* Answers: DSA_ACCEPTED, DSA_RETRY, DSA_FULL, DSA_NO_DEVICE, DSA_BAD_ARGUMENT. */
struct dsa_answer dsa_enqcmd(struct dsa_model *handle, uint16_t client, uint16_t queue, uint32_t portal, uint32_t pasid,
                             const struct dsa_descriptor *descriptor);
/* Answers: DSA_ACCEPTED, DSA_DROPPED, DSA_FULL, DSA_NO_DEVICE, DSA_BAD_ARGUMENT. */
struct dsa_answer dsa_movdir64b(struct dsa_model *handle, uint16_t client, uint16_t queue, uint32_t portal,
                                const struct dsa_descriptor *descriptor);

/* An engine takes the front of a queue of its group. */
/* Answers: DSA_TAKEN, DSA_IDLE, DSA_FULL, DSA_NO_DEVICE. */
struct dsa_answer dsa_dispatch(struct dsa_model *handle, uint16_t engine);
/* The same, from this queue, for a model that follows what hardware did. DSA_IDLE: the engine may
 * not take from it, and nothing changed. */
/* Answers: DSA_TAKEN, DSA_IDLE, DSA_FULL, DSA_NO_DEVICE. */
struct dsa_answer dsa_dispatch_from(struct dsa_model *handle, uint16_t engine, uint16_t queue);
/* An engine hands in the next member of its batch. */
/* Answers: DSA_FETCHED, DSA_NO_BATCH, DSA_ALL_FETCHED, DSA_FULL, DSA_NO_DEVICE. */
struct dsa_answer dsa_fetch(struct dsa_model *handle, uint16_t engine, const struct dsa_descriptor *descriptor);
/* An engine starts the first of its members that does not run. */
/* Answers: DSA_STARTED, DSA_FENCE_WAIT, DSA_NO_BUFFERS, DSA_ABANDONED, DSA_NOTHING, DSA_FULL,
 * DSA_NO_DEVICE. */
struct dsa_answer dsa_start(struct dsa_model *handle, uint16_t engine);
/* An engine ends the running entry of that cell and name, with an enum dsa_outcome. The end of a
 * Drain looks at its queue and at what is in progress on each engine. */
/* Answers: DSA_DONE, DSA_NOT_READY, DSA_GONE, DSA_FULL, DSA_NO_DEVICE, DSA_BAD_ARGUMENT. */
struct dsa_answer dsa_finish(struct dsa_model *handle, uint16_t engine, uint32_t cell, uint32_t name, uint32_t outcome);

/* A word is written to the command register (DSA_COMMAND). One that is no command is refused with
 * DSA_FAULT_BAD_COMMAND, even by a closed handle. */
/* Answers: DSA_ENDED, DSA_ACTIVE, DSA_REFUSED, DSA_FULL, DSA_NO_DEVICE. */
struct dsa_answer dsa_command(struct dsa_model *handle, uint32_t word);
/* Asks whether the active command is over. */
/* Answers: DSA_FINISHED, DSA_ACTIVE, DSA_NOTHING, DSA_FULL, DSA_NO_DEVICE. */
struct dsa_answer dsa_poll(struct dsa_model *handle);
/* Configurations are written while they are not in use. */
/* Answers: DSA_WRITTEN, DSA_REFUSED, DSA_FULL, DSA_NO_DEVICE, DSA_BAD_ARGUMENT. */
struct dsa_answer dsa_write_queue(struct dsa_model *handle, uint16_t queue, const struct dsa_queue *config);
/* Answers: DSA_WRITTEN, DSA_REFUSED, DSA_FULL, DSA_NO_DEVICE. */
struct dsa_answer dsa_write_group(struct dsa_model *handle, uint16_t group, const struct dsa_group *config);
/* Clears the noted error, and tells it. */
/* Answers: DSA_CLEARED, DSA_NOTHING, DSA_FULL, DSA_NO_DEVICE. */
struct dsa_answer dsa_clear_error(struct dsa_model *handle);

/* The step of an event, as dsa_history_event gives it: that of the call of its kind, with these
 * numbers. So a program makes the steps of one device again on another. DSA_BAD_ARGUMENT: its kind
 * is none of these, or writes a configuration, for which there are dsa_write_queue and
 * dsa_write_group; or its portal, its outcome or its command is none. The device itself chooses the
 * queue of a dispatch; dsa_dispatch_from takes from the one that was taken from. */
/* Answers: DSA_ACCEPTED, DSA_RETRY, DSA_DROPPED, DSA_TAKEN, DSA_IDLE, DSA_FETCHED, DSA_NO_BATCH,
 * DSA_ALL_FETCHED, DSA_STARTED, DSA_FENCE_WAIT, DSA_NO_BUFFERS, DSA_ABANDONED, DSA_NOTHING,
 * DSA_DONE, DSA_NOT_READY, DSA_GONE, DSA_ENDED, DSA_ACTIVE, DSA_REFUSED, DSA_FINISHED, DSA_CLEARED,
 * DSA_FULL, DSA_NO_DEVICE, DSA_BAD_ARGUMENT. */
struct dsa_answer dsa_step(struct dsa_model *handle, const struct dsa_event *event);

/* ---- reads: none changes the device or the handle; each gives DSA_NONE, DSA_NO_NUMBER,
 * DSA_NO_DEVICE, DSA_NOT_ENDED or 0 on a closed handle ---- */

/* Steps that the history may have: dsa_room, or fewer where the history began anew and fewer names
 * were left below 4294967295. */
uint64_t dsa_capacity(const struct dsa_model *handle);
/* Steps that the device took memory for, which is the capacity that it was opened with. */
uint64_t dsa_room(const struct dsa_model *handle);
/* 1: the history began anew, so steps were made before its first one; 0: it did not. */
uint32_t dsa_is_anew(const struct dsa_model *handle);
/* Entries that wait in the queue; DSA_NONE: no such queue. */
uint64_t dsa_occupancy(const struct dsa_model *handle, uint16_t queue);
/* Read buffers that the group uses; DSA_NONE: no such group. */
uint64_t dsa_used(const struct dsa_model *handle, uint16_t group);
/* Entries in all queues and engines. */
uint64_t dsa_held(const struct dsa_model *handle);
/* The name that the next entry gets. */
uint64_t dsa_next_name(const struct dsa_model *handle);
/* The command that is not over (enum dsa_command_number); DSA_NO_NUMBER: none. */
uint32_t dsa_active(const struct dsa_model *handle);
/* Entries that the active command still waits for; DSA_NONE: none is active. */
uint64_t dsa_awaited(const struct dsa_model *handle);
/* The same number. It writes the names of these entries, as many as there is room for: first those
 * in the queues, then those in progress on the engines and the members on them, each list by its
 * number and from its front. */
uint64_t dsa_awaited_names(const struct dsa_model *handle, uint32_t *names, uint64_t count);
/* Stored steps; the history is full at dsa_capacity. */
uint64_t dsa_history_length(const struct dsa_model *handle);
/* 1: each step is answered DSA_FULL; 0: the history is not full. */
uint32_t dsa_history_is_full(const struct dsa_model *handle);
/* Entries that ended, without those whose fates were forgotten. */
uint64_t dsa_fates_length(const struct dsa_model *handle);
/* The phase of the device, and of a queue (enum dsa_phase_number); DSA_NO_NUMBER: no such queue. */
uint32_t dsa_phase(const struct dsa_model *handle);
uint32_t dsa_queue_phase(const struct dsa_model *handle, uint16_t queue);
/* Submitted entries in progress on the engine, and members of its batch that did not end; DSA_NONE:
 * no such engine. */
uint64_t dsa_in_progress(const struct dsa_model *handle, uint16_t engine);
uint64_t dsa_members(const struct dsa_model *handle, uint16_t engine);
/* 1: the entry of that ticket is held; 0: it is not. */
uint32_t dsa_holds(const struct dsa_model *handle, uint32_t cell, uint32_t name);

/* The noted error, or that there is none. */
/* Answers: DSA_CLEARED, DSA_NOTHING, DSA_NO_DEVICE. */
struct dsa_answer dsa_noted(const struct dsa_model *handle);
/* The answer of a stored step, the first at 0, as the step gave it; DSA_NOTHING: no such step. */
/* Answers: DSA_ACCEPTED, DSA_RETRY, DSA_DROPPED, DSA_TAKEN, DSA_FETCHED, DSA_STARTED,
 * DSA_ABANDONED, DSA_DONE, DSA_ENDED, DSA_ACTIVE, DSA_FINISHED, DSA_WRITTEN, DSA_CLEARED,
 * DSA_NOTHING, DSA_NO_DEVICE. */
struct dsa_answer dsa_history_answer(const struct dsa_model *handle, uint64_t position);
/* How an entry ended: in the order of endings, the first at 0, or by its name. DSA_NOT_ENDED: no
 * such ending, the entry is still held, there is no such name, or its fate was forgotten. By its
 * name an ending is found by a walk from the first one, by its place without a walk. */
struct dsa_ending dsa_fate_at(const struct dsa_model *handle, uint64_t position);
struct dsa_ending dsa_fate_of(const struct dsa_model *handle, uint32_t name);

/* These write what they read and give 1. They write nothing and give 0 on a closed handle, and
 * where the device has no such queue, group, engine, place or stored step, the engine works on no
 * batch, or the cell holds no entry. Places count from 0, in the order in which entries came. A
 * place in a list is found by a walk from its front. */
uint32_t dsa_caps_of(const struct dsa_model *handle, struct dsa_caps *caps); /* as it was opened */
uint32_t dsa_queue_config(const struct dsa_model *handle, uint16_t queue, struct dsa_queue *config);
uint32_t dsa_group_config(const struct dsa_model *handle, uint16_t group, struct dsa_group *config);
uint32_t dsa_waiting_at(const struct dsa_model *handle, uint16_t queue, uint64_t place,
                        struct dsa_entry *entry);
uint32_t dsa_in_progress_at(const struct dsa_model *handle, uint16_t engine, uint64_t place,
                            struct dsa_entry *entry);
uint32_t dsa_member_at(const struct dsa_model *handle, uint16_t engine, uint64_t place,
                       struct dsa_entry *entry);
/* The entry in a cell, found without a walk. */
uint32_t dsa_entry_in(const struct dsa_model *handle, uint32_t cell, struct dsa_entry *entry);
/* C++ warns of a function with the name of a struct. */
#if defined(__cplusplus) && defined(__GNUC__)
#pragma GCC diagnostic push
#pragma GCC diagnostic ignored "-Wshadow"
#endif
uint32_t dsa_batch(const struct dsa_model *handle, uint16_t engine, struct dsa_batch *batch);
#if defined(__cplusplus) && defined(__GNUC__)
#pragma GCC diagnostic pop
#endif
/* The event of a stored step. */
uint32_t dsa_history_event(const struct dsa_model *handle, uint64_t position, struct dsa_event *event);
/* The configuration that a stored step wrote to a queue or to a group; of another step there is
 * none. */
uint32_t dsa_history_queue_config(const struct dsa_model *handle, uint64_t position,
                                  struct dsa_queue *config);
uint32_t dsa_history_group_config(const struct dsa_model *handle, uint64_t position,
                                  struct dsa_group *config);

/* ---- reasons ---- */

/* Why a step of the event would be answered as it would, if dsa_step made it now: the sentence that
 * `./run explain` has behind the answer (docs/EXPLAIN.md), in ASCII. Nothing is stored and nothing
 * changes. It writes the text and a zero to the buffer, as far as there is room for `size` bytes,
 * and gives the length of the whole text, as snprintf does. The length is 0 where there is no
 * reason: the step would do what it asks for. DSA_NONE: the handle is closed, or dsa_step would
 * answer DSA_BAD_ARGUMENT. DSA_NO_MEMORY: memory for the text was refused. With these two the
 * buffer has an empty text. The buffer is not null, even where `size` is 0. */
uint64_t dsa_why(const struct dsa_model *handle, const struct dsa_event *event, char *buffer, uint64_t size);

/* The same reason as a kind and its numbers. It writes the reason and gives 1; it writes nothing
 * and gives 0 where dsa_why gives DSA_NONE. Nothing is stored and nothing changes. The kind is
 * DSA_REASON_NONE exactly where the text of dsa_why is empty. */
uint32_t dsa_reason_of(const struct dsa_model *handle, const struct dsa_event *event,
                       struct dsa_reason *reason);
/* Why the engine does not take the front of this queue of its group, as DSA_REASON_ENGINE_IDLE says
 * that it takes none. The kind is DSA_REASON_NONE where the engine may take it. It writes nothing
 * and gives 0 on a closed handle, and where the queue is not one of the engine's group. */
uint32_t dsa_queue_reason(const struct dsa_model *handle, uint16_t engine, uint16_t queue,
                          struct dsa_reason *reason);

/* ---- descriptors: these need no device; `member` is 0 for one that is submitted, else it is in
 * a batch ---- */

uint32_t dsa_check(const struct dsa_descriptor *descriptor, const struct dsa_limits *limits, uint32_t member); /* 0 or a status */
uint32_t dsa_need(const struct dsa_descriptor *descriptor, const struct dsa_limits *limits, uint32_t member);  /* read buffers */
uint32_t dsa_status(const struct dsa_descriptor *descriptor, const struct dsa_limits *limits, uint32_t member,
                    uint32_t outcome); /* 0 where the outcome is neither */
void dsa_image(const struct dsa_descriptor *descriptor, uint32_t pasid, struct dsa_descriptor *image); /* what ENQCMD writes */

uint32_t dsa_version(void); /* DSA_VERSION of the library */

#ifdef __cplusplus
}
#endif

/* ---- C of this header, tested and not proved; the library exports these functions too ---- */

#ifndef DSA_IN_HEADER
#define DSA_IN_HEADER static inline
#endif

/* A closed handle. */
DSA_IN_HEADER struct dsa_model dsa_closed(void)
{
	struct dsa_model closed = DSA_CLOSED;
	return closed;
}

/* The names of enum dsa_kind, dsa_fault, dsa_command_number, dsa_status, dsa_operation and
 * dsa_load_result and dsa_anew_result. Each is "?" where a number has none. */

DSA_IN_HEADER const char *dsa_kind_name(uint32_t kind)
{
	static const char *const names[] = {
		"no device", "accepted", "retry", "dropped", "taken", "idle", "fetched", "no batch", "all fetched", "started",
		"fence wait", "no buffers", "abandoned", "nothing", "done", "not ready", "gone", "ended", "active", "refused",
		"finished", "written", "cleared", "full", "bad argument"
	};
	return kind < sizeof names / sizeof names[0] ? names[kind] : "?";
}

DSA_IN_HEADER const char *dsa_fault_name(uint32_t number)
{
	static const char *const names[] = {
		"?", "SizesTooLarge", "TwoGroups", "ReservedTooMany", "AllowedOutOfRange", "GroupWithoutEngine", "GroupWithoutQueue",
		"SizeZero", "PriorityZero", "ThresholdZero", "ThresholdAboveSize", "BatchTooLarge", "NoGroup", "BadCommand", "BadQueue",
		"Locked", "WrongState", "Busy", "PriorityTooLarge", "TransferTooLarge", "BadIndex"
	};
	return number < sizeof names / sizeof names[0] ? names[number] : "?";
}

DSA_IN_HEADER const char *dsa_command_name(uint32_t number)
{
	static const char *const names[] = {
		"?", "Enable Device", "Disable Device", "Drain All", "Abort All", "Reset Device", "Enable WQ", "Disable WQ", "Drain WQ",
		"Abort WQ", "Reset WQ", "Drain PASID", "Abort PASID"
	};
	return number < sizeof names / sizeof names[0] ? names[number] : "?";
}

DSA_IN_HEADER const char *dsa_status_name(uint32_t status)
{
	switch (status) {
	case 0x00: return "DSA_COMP_NONE";
	case 0x01: return "DSA_COMP_SUCCESS";
	case 0x03: return "DSA_COMP_PAGE_FAULT_NOBOF";
	case 0x05: return "DSA_COMP_BATCH_FAIL";
	case 0x10: return "DSA_COMP_BAD_OPCODE";
	case 0x11: return "DSA_COMP_INVALID_FLAGS";
	case 0x13: return "DSA_COMP_XFER_ERANGE";
	case 0x14: return "DSA_COMP_DESC_CNT_ERANGE";
	default: return "?";
	}
}

DSA_IN_HEADER const char *dsa_load_name(uint32_t result)
{
	static const char *const names[] = {
		"loaded", "truncated", "bad magic", "bad version", "bad length", "bad checksum", "bad caps",
		"bad capacity", "out of memory", "bad event", "bad step", "already open"
	};
	return result < sizeof names / sizeof names[0] ? names[result] : "?";
}

DSA_IN_HEADER const char *dsa_operation_name(uint32_t operation)
{
	static const char *const names[] = {
		"DSA_OPCODE_NOOP", "DSA_OPCODE_BATCH", "DSA_OPCODE_DRAIN", "DSA_OPCODE_MEMMOVE",
		"DSA_OPCODE_MEMFILL", "DSA_OPCODE_COMPARE"
	};
	return operation < sizeof names / sizeof names[0] ? names[operation] : "?";
}

DSA_IN_HEADER const char *dsa_anew_result_name(uint32_t result)
{
	static const char *const names[] = { "begun", "no device", "no memory" };
	return result < sizeof names / sizeof names[0] ? names[result] : "?";
}

DSA_IN_HEADER const char *dsa_reason_name(uint32_t kind)
{
	static const char *const names[] = {
		"none", "history full", "names short", "no such queue", "no such engine", "queue not on",
		"queue dedicated", "queue shared", "portal at limit", "engine idle",
		"engine without group", "engine without queue", "queue empty", "no slot",
		"front lacks buffers", "other batch", "other drain", "no batch", "all fetched",
		"batch closed", "no member", "fence waits", "fence failed", "fence failed forgotten",
		"member lacks buffers", "cell empty", "cell of other", "elsewhere", "not started",
		"members left", "still to fetch", "drain waits", "completed", "aborted", "abandoned",
		"no such name", "not supported", "fence outside", "size outside", "count outside",
		"members failed", "members failed forgotten", "page fault", "command active",
		"command over", "no queue named", "wrong queue phase", "wrong device phase",
		"would remove", "would wait", "no command", "command waits", "nothing noted",
		"group names no queue", "group names no engine", "sizes too large", "queue in two groups",
		"engine in two groups", "reserved too many", "allowed below reserved",
		"allowed above rest", "allowed below need", "group without engine", "group without queue",
		"size zero", "priority zero", "priority too large", "threshold zero",
		"threshold above size", "batch too large", "transfer too large", "queue without group"
	};
	return kind < sizeof names / sizeof names[0] ? names[kind] : "?";
}

#endif
