/* Scripts and traces, as docs/scripts.md has them. */
#ifndef TRACE_H
#define TRACE_H

#include <stdio.h>

#include "request.h"

/* The longest line of a trace, with its end: a value, the interrupt output and 17 bytes that left. */
#define TRACE_LINE 48

/* Writes the line of an event: `wait` with the nanoseconds from `now` for REQUEST_ADVANCE. */
void script_write(FILE *file, const struct request *request, uint64_t now);

/* Reads a line of an event. The event's moment is `now`, or later by the nanoseconds of a `wait`. Returns whether it is one. */
bool script_read(const char *line, uint64_t now, struct request *request);

/* Makes the line of an event's answer, with its end. Returns its length. */
size_t trace_line(char *line, const struct request *request, const struct vmstate_board_answer *answer);

#endif
