/* A board of emulated devices for C and C++: the static library of the crate vmstate_board_c.
 *
 * Who needs it: a virtual machine monitor that wants a pair of 8259A, an 8254 and a 16550A (`isa-1` to `isa-4`), with a clock chip
 * beside them (`clk-1`, `clk-2`), and whose guest may resume in another program. docs/devices.md says what the devices do.
 *
 * What each call does is proved. Nothing checks a C caller: that these declarations match the library, that pointers and lengths
 * name memory, that a handle is all zeros or as a call left it, that it isn't copied and freed twice by its copy, and that one
 * call at a time uses it.
 *
 * Memory: vmstate_board_new takes all the memory that events and restores need. vmstate_board_save takes memory too, and frees it
 * before it returns. No other call takes memory. No call blocks, and none calls back.
 *
 * Time: a moment is a number of nanoseconds since power on. The board has no clock of its own: each access says the moment at
 * which it happens, and time passes on the board up to it first. It passes up to VMSTATE_BOARD_LAST at most. */
#ifndef VMSTATE_BOARD_H
#define VMSTATE_BOARD_H

#include <stdbool.h>
#include <stddef.h>
#include <stdint.h>

#ifdef __cplusplus
extern "C" {
#endif

/* A handle: a board, or none where all bytes are zero. Its fields are the library's. It may be moved to another place, not copied. */
struct vmstate_board {
    void *at;
    bool made;
};

/* Kinds of boards. */
enum vmstate_board_kind {
    VMSTATE_BOARD_ISA = 0, /* isa-1 to isa-4 */
    VMSTATE_BOARD_CLK = 1  /* clk-1 and clk-2: an isa-4 with a clock chip at ports 70 and 71 */
};

/* What a call answers. At any status but 0 the board is unchanged. */
enum vmstate_board_status {
    VMSTATE_BOARD_DONE = 0,
    VMSTATE_BOARD_REFUSED = 1,    /* the stream is refused */
    VMSTATE_BOARD_NONE_SUCH = 2,  /* no such kind, level, set, wire or counter */
    VMSTATE_BOARD_NO_BOARD = 3,   /* the handle has no board */
    VMSTATE_BOARD_PAST = 4,       /* the moment is before the board's */
    VMSTATE_BOARD_NO_MEMORY = 10, /* out of memory */
    VMSTATE_BOARD_TOO_SMALL = 100 /* the room is too small for the stream */
};

/* The last moment that a board has: that of 4,000,000,000 seconds. */
#define VMSTATE_BOARD_LAST UINT64_C(4000000000000000000)

/* What an event answers. `value` is that of a read or an acknowledge, else 0. `output` is 1 if the interrupt output is high after
 * the event, else 0. `sent` has the bytes that left the serial port, in order; there are `count` of them, at most 17, and the rest
 * of `sent` is 0. At any status but 0 everything else is 0. */
struct vmstate_board_answer {
    uint32_t status;
    uint8_t value;
    uint8_t output;
    uint8_t count;
    uint8_t sent[17];
};

/* A status and a number. At any status but 0 the number is 0, unless the call says something else. */
struct vmstate_board_number {
    uint32_t status;
    uint64_t number;
};

/* Makes the board of a kind and a level at power on, at moment 0. `level` is 1 to 4 for ISA, 1 or 2 for CLK. A board that the handle
 * already has is freed. Statuses: DONE, NONE_SUCH, NO_MEMORY. */
uint32_t vmstate_board_new(struct vmstate_board *board, uint8_t kind, uint8_t level);

/* Frees the board, if there is one; the handle is all zeros then. A second call does nothing. */
void vmstate_board_free(struct vmstate_board *board);

/* ---- Events. Time passes up to `moment` first, and bytes that leave meanwhile are in the answer.
 * Statuses: DONE, NO_BOARD, PAST; of wire NONE_SUCH. */

/* The guest reads a port. A port that has no device gives ff. */
struct vmstate_board_answer vmstate_board_in(struct vmstate_board *board, uint64_t moment, uint16_t port);

/* The guest writes a byte to a port. */
struct vmstate_board_answer vmstate_board_out(struct vmstate_board *board, uint64_t moment, uint16_t port, uint8_t value);

/* A byte arrives on the serial line. Ask vmstate_board_room first, and leave vmstate_board_character between two bytes. */
struct vmstate_board_answer vmstate_board_receive(struct vmstate_board *board, uint64_t moment, uint8_t value);

/* A free interrupt input, one of 1, 3, 5, 6, 7 and 8 to 15, rises or falls, and stays so. Input 8 of a CLK board is driven by its
 * clock chip: the call changes nothing then. */
struct vmstate_board_answer vmstate_board_wire(struct vmstate_board *board, uint64_t moment, uint8_t input, bool up);

/* Only time passes. */
struct vmstate_board_answer vmstate_board_advance(struct vmstate_board *board, uint64_t moment);

/* The processor acknowledges an interrupt, at the board's moment: the value is the vector. Call it when the output is high and
 * the processor takes an interrupt. Statuses: DONE, NO_BOARD. */
struct vmstate_board_answer vmstate_board_ack(struct vmstate_board *board);

/* ---- Questions, which change nothing. Statuses: DONE, NO_BOARD. */

/* 1 where the interrupt output is high, else 0. */
struct vmstate_board_number vmstate_board_int(struct vmstate_board *board);

/* 1 where OUT of a counter of the 8254, 0 to 2, is high at the board's moment, else 0. That of counter 2 is bit 5 of port 61, which a
 * board doesn't have. Statuses: NONE_SUCH too. */
struct vmstate_board_number vmstate_board_output(struct vmstate_board *board, uint8_t counter);

/* How many bytes may arrive now before one is lost: 0 to 16 with FIFOs, else 0 or 1. It is 0 in loop mode, where bytes that arrive
 * are ignored. */
struct vmstate_board_number vmstate_board_room(struct vmstate_board *board);

/* The time of one character on the serial line in nanoseconds, at most 6,826,562,500. */
struct vmstate_board_number vmstate_board_character(struct vmstate_board *board);

/* What vmstate_board_due answers if no wait shows anything. */
#define VMSTATE_BOARD_NEVER UINT64_MAX

/* How long the board can wait: the least number of nanoseconds by which vmstate_board_advance from its moment shows something, a
 * changed interrupt output or bytes that left. It is VMSTATE_BOARD_NEVER if no wait shows anything. Set a timer to it, and advance
 * the board when the timer ends. Ask again after each event. The answer is about one wait: in the serial port's loop mode the
 * output can rise and fall again within a longer one. */
struct vmstate_board_number vmstate_board_due(struct vmstate_board *board);

/* 1 where a device of the board is behind the port, else 0. */
struct vmstate_board_number vmstate_board_has_port(struct vmstate_board *board, uint16_t port);

/* The board's moment. */
struct vmstate_board_number vmstate_board_now(struct vmstate_board *board);

/* The board's level: 1 to 4 of ISA, 1 or 2 of CLK. */
struct vmstate_board_number vmstate_board_level(struct vmstate_board *board);

/* ---- Migration */

/* Writes the board's stream to the beginning of `room`, a buffer of `size` bytes. `set` is a set of the board's kind, from its level
 * to the newest; `describe` says whether the stream ends with the description of itself. The number is the stream's length; if
 * the room is too small, it is the required length. At any status but DONE the room is unchanged, and bytes after the stream
 * always are. `room` may be null if `size` is 0.
 * Statuses: DONE, NONE_SUCH, NO_BOARD, NO_MEMORY, TOO_SMALL. */
struct vmstate_board_number vmstate_board_save(struct vmstate_board *board, uint8_t set, bool describe, uint8_t *room, size_t size);

/* No device. */
#define VMSTATE_BOARD_NO_DEVICE UINT32_MAX

/* What a restore answers. At DONE `offset` is the stream's length. At REFUSED `offset` is where the stream is refused, `device` the
 * device of the newest set, from 0, or VMSTATE_BOARD_NO_DEVICE, `reason` one of vmstate_board_reason, and `rule` the number of the
 * device's rule (docs/devices.md) if the reason is UNSOUND, else 0. Everything else is 0. */
struct vmstate_board_restored {
    uint32_t status;
    uint32_t device;
    uint64_t offset;
    uint32_t reason;
    uint32_t rule;
};

/* Restores the board from a stream that names its machine or none. At any status but DONE the board is unchanged.
 * Statuses: DONE, REFUSED, NO_BOARD. */
struct vmstate_board_restored vmstate_board_restore(struct vmstate_board *board, const uint8_t *stream, size_t size);

/* Why a stream is refused, in the words of `vmstate load`. */
enum vmstate_board_reason {
    VMSTATE_BOARD_TRUNCATED = 1,
    VMSTATE_BOARD_BAD_MAGIC,
    VMSTATE_BOARD_OLD_STREAM,
    VMSTATE_BOARD_BAD_VERSION,
    VMSTATE_BOARD_BAD_MARK,
    VMSTATE_BOARD_RAM,
    VMSTATE_BOARD_ITERATIVE,
    VMSTATE_BOARD_COMMAND,
    VMSTATE_BOARD_CONFIGURATION_EXTRA,
    VMSTATE_BOARD_WRONG_MACHINE,
    VMSTATE_BOARD_UNKNOWN_SECTION,
    VMSTATE_BOARD_REPEATED_SECTION,
    VMSTATE_BOARD_TOO_NEW,
    VMSTATE_BOARD_TOO_OLD,
    VMSTATE_BOARD_BAD_BOOL,
    VMSTATE_BOARD_NOT_EQUAL,
    VMSTATE_BOARD_COUNT_TOO_LARGE,
    VMSTATE_BOARD_UNKNOWN_SUBSECTION,
    VMSTATE_BOARD_REPEATED_SUBSECTION,
    VMSTATE_BOARD_INVALID,
    VMSTATE_BOARD_UNSOUND,
    VMSTATE_BOARD_BAD_FOOTER,
    VMSTATE_BOARD_MISSING_SECTION,
    VMSTATE_BOARD_LINES_DISAGREE,
    VMSTATE_BOARD_TRAILING,
    VMSTATE_BOARD_DESCRIPTION_TOO_LONG
};

#ifdef __cplusplus
}
#endif

#endif
