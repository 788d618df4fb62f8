/* keeper KIND LEVEL: a process of its own that has a board for a while.
 *
 * Standard input is a socket. The keeper restores a board from the stream that comes first, and makes the calls that are
 * requested. It ends when the board is to be saved, with the board's stream as the last answer. */
#include <stdlib.h>
#include <unistd.h>

#include "request.h"

int main(int count, char **words)
{
    static uint8_t room[STREAM_ROOM];
    struct vmstate_board board = {0};
    struct request request;
    uint64_t length;
    if (count != 3)
        die("keeper KIND LEVEL");
    read_all(0, &length, sizeof length);
    if (length > STREAM_ROOM)
        die("a stream of %llu bytes", (unsigned long long)length);
    read_all(0, room, length);
    stream_restore(&board, (uint8_t)atoi(words[1]), (uint8_t)atoi(words[2]), room, length);
    for (;;) {
        read_all(0, &request, sizeof request);
        if (request.kind == REQUEST_SAVE)
            break;
        struct reply reply = request_do(&board, &request);
        write_all(0, &reply, sizeof reply);
    }
    length = stream_save(&board, request.value, request.place != 0, room);
    write_all(0, &length, sizeof length);
    write_all(0, room, length);
    return 0;
}
