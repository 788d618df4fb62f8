#include "request.h"

#include <errno.h>
#include <stdarg.h>
#include <stdio.h>
#include <stdlib.h>
#include <unistd.h>

_Noreturn void die(const char *format, ...)
{
    va_list arguments;
    va_start(arguments, format);
    fputs("guest: ", stderr);
    vfprintf(stderr, format, arguments);
    fputc('\n', stderr);
    va_end(arguments);
    _exit(4);
}

static struct reply event(struct vmstate_board_answer answer)
{
    return (struct reply){answer, 0};
}

static struct reply number(struct vmstate_board_number answer)
{
    struct reply reply = {{0}, answer.number};
    reply.answer.status = answer.status;
    return reply;
}

struct reply request_do(struct vmstate_board *board, const struct request *request)
{
    switch (request->kind) {
    case REQUEST_IN:
        return event(vmstate_board_in(board, request->moment, request->place));
    case REQUEST_OUT:
        return event(vmstate_board_out(board, request->moment, request->place, request->value));
    case REQUEST_RECEIVE:
        return event(vmstate_board_receive(board, request->moment, request->value));
    case REQUEST_WIRE:
        return event(vmstate_board_wire(board, request->moment, (uint8_t)request->place, request->value != 0));
    case REQUEST_ADVANCE:
        return event(vmstate_board_advance(board, request->moment));
    case REQUEST_ACK:
        return event(vmstate_board_ack(board));
    case REQUEST_INT:
        return number(vmstate_board_int(board));
    case REQUEST_OUTPUT:
        return number(vmstate_board_output(board, (uint8_t)request->place));
    case REQUEST_ROOM:
        return number(vmstate_board_room(board));
    case REQUEST_CHARACTER:
        return number(vmstate_board_character(board));
    default:
        die("there is no call %d", request->kind);
    }
}

size_t stream_save(struct vmstate_board *board, uint8_t set, bool describe, uint8_t *room)
{
    struct vmstate_board_number saved = vmstate_board_save(board, set, describe, room, STREAM_ROOM);
    if (saved.status)
        die("save under set %d: status %u", set, saved.status);
    vmstate_board_free(board);
    return saved.number;
}

void stream_restore(struct vmstate_board *board, uint8_t kind, uint8_t level, const uint8_t *stream, size_t length)
{
    uint32_t status = vmstate_board_new(board, kind, level);
    if (status)
        die("new: status %u", status);
    struct vmstate_board_restored restored = vmstate_board_restore(board, stream, length);
    if (restored.status)
        die("restore: status %u, offset %llu, device %d, reason %u, rule %u", restored.status,
            (unsigned long long)restored.offset, (int)restored.device, restored.reason, restored.rule);
}

void write_all(int file, const void *bytes, size_t length)
{
    for (const uint8_t *at = bytes; length;) {
        ssize_t count = write(file, at, length);
        if (count < 0 && errno == EINTR)
            continue;
        if (count <= 0)
            die("the other process is gone");
        at += count;
        length -= (size_t)count;
    }
}

void read_all(int file, void *bytes, size_t length)
{
    for (uint8_t *at = bytes; length;) {
        ssize_t count = read(file, at, length);
        if (count < 0 && errno == EINTR)
            continue;
        if (count <= 0)
            die("the other process is gone");
        at += count;
        length -= (size_t)count;
    }
}
