/* Where a board is: in this process, or in one that was started for it. */
#ifndef PLACE_H
#define PLACE_H

#include <sys/types.h>

#include "request.h"

struct place {
    struct vmstate_board board; /* the board, if it is here */
    pid_t keeper;               /* the process that has it, else 0 */
    int line;                   /* the socket to it */
    uint8_t kind, level;
    const char *program; /* what the process executes */
};

/* Makes a board at power on, here. */
void place_new(struct place *place, uint8_t kind, uint8_t level, const char *program);

/* Makes a call of the board, wherever it is. Ends the program if it answers a status other than 0. */
struct reply place_do(struct place *place, struct request request);

/* Migrates the board: it is saved under `set`, freed where it was, and restored in a new board. That one is in a process that
 * has just been started if `is_fresh`, else here. Returns the length of the stream. */
size_t place_migrate(struct place *place, uint8_t set, bool describe, bool is_fresh);

/* Frees the board, here or there. */
void place_free(struct place *place);

#endif
