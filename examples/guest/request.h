/* A call of a board as a value, so that it can be made in this process or in another. */
#ifndef REQUEST_H
#define REQUEST_H

#include <stdbool.h>
#include <stddef.h>
#include <stdint.h>

#include "vmstate_board.h"

enum request_kind {
    REQUEST_IN,
    REQUEST_OUT,
    REQUEST_RECEIVE,
    REQUEST_WIRE,
    REQUEST_ADVANCE,
    REQUEST_ACK,
    REQUEST_INT,
    REQUEST_OUTPUT,
    REQUEST_ROOM,
    REQUEST_CHARACTER,
    REQUEST_SAVE /* of a keeper alone: it answers the stream, and ends */
};

/* `place` is a port, an interrupt input or a counter, or 1 for a stream with its description. `value` is what is written or
 * received, 1 for a wire that rises, or a set. */
struct request {
    uint64_t moment;
    uint16_t place;
    uint8_t kind, value;
};

/* What an event answers, or the number that a question answers. */
struct reply {
    struct vmstate_board_answer answer;
    uint64_t number;
};

/* Makes a call of a board. The status is in `answer`. */
struct reply request_do(struct vmstate_board *board, const struct request *request);

/* A stream is at most this long. */
#define STREAM_ROOM 65536

/* Saves the board under a set, and frees it. Returns the stream's length, and ends the program with a message if that fails. */
size_t stream_save(struct vmstate_board *board, uint8_t set, bool describe, uint8_t *room);

/* Makes a new board and restores it from a stream. Ends the program with a message if that fails. */
void stream_restore(struct vmstate_board *board, uint8_t kind, uint8_t level, const uint8_t *stream, size_t length);

/* Writes or reads all bytes. Ends the program if the other side is gone. */
void write_all(int file, const void *bytes, size_t length);
void read_all(int file, void *bytes, size_t length);

/* Ends the program with a message and status 4. */
_Noreturn void die(const char *format, ...);

#endif
