#define _GNU_SOURCE
#include "place.h"

#include <stdio.h>
#include <sys/socket.h>
#include <sys/wait.h>
#include <unistd.h>

void place_new(struct place *place, uint8_t kind, uint8_t level, const char *program)
{
    *place = (struct place){.kind = kind, .level = level, .program = program};
    uint32_t status = vmstate_board_new(&place->board, kind, level);
    if (status)
        die("new: status %u", status);
}

struct reply place_do(struct place *place, struct request request)
{
    struct reply reply;
    if (place->keeper) {
        write_all(place->line, &request, sizeof request);
        read_all(place->line, &reply, sizeof reply);
    } else {
        reply = request_do(&place->board, &request);
    }
    if (reply.answer.status)
        die("call %d: status %u", request.kind, reply.answer.status);
    return reply;
}

/* Starts a process of its own, in which a new program restores the board, and leaves the board to it. */
static void hand_over(struct place *place, const uint8_t *stream, size_t length)
{
    int ends[2];
    if (socketpair(AF_UNIX, SOCK_STREAM | SOCK_CLOEXEC, 0, ends))
        die("no socket");
    pid_t keeper = fork();
    if (keeper < 0)
        die("no process");
    if (keeper == 0) {
        char kind[4], level[4];
        snprintf(kind, sizeof kind, "%d", place->kind);
        snprintf(level, sizeof level, "%d", place->level);
        if (dup2(ends[1], 0) == 0)
            execl(place->program, "keeper", kind, level, (char *)0);
        _exit(5);
    }
    close(ends[1]);
    place->line = ends[0];
    place->keeper = keeper;
    uint64_t size = length;
    write_all(place->line, &size, sizeof size);
    write_all(place->line, stream, length);
}

/* Takes the board's stream from the process that has it, and waits for the end of that process. */
static size_t take_back(struct place *place, uint8_t set, bool describe, uint8_t *room)
{
    struct request save = {.kind = REQUEST_SAVE, .value = set, .place = describe};
    uint64_t length;
    int status;
    write_all(place->line, &save, sizeof save);
    read_all(place->line, &length, sizeof length);
    if (length > STREAM_ROOM)
        die("a stream of %llu bytes", (unsigned long long)length);
    read_all(place->line, room, length);
    close(place->line);
    if (waitpid(place->keeper, &status, 0) < 0 || status)
        die("the keeper ended with %d", status);
    place->keeper = 0;
    return length;
}

size_t place_migrate(struct place *place, uint8_t set, bool describe, bool is_fresh)
{
    static uint8_t room[STREAM_ROOM];
    size_t length = place->keeper ? take_back(place, set, describe, room) : stream_save(&place->board, set, describe, room);
    if (is_fresh)
        hand_over(place, room, length);
    else
        stream_restore(&place->board, place->kind, place->level, room, length);
    return length;
}

void place_free(struct place *place)
{
    static uint8_t room[STREAM_ROOM];
    if (place->keeper)
        take_back(place, place->kind == VMSTATE_BOARD_ISA ? 4 : 2, false, room);
    vmstate_board_free(&place->board);
}
