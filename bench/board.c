/* One event of a board again and again, to count what it executes: board EVENT COUNT PORT=VALUE..
 * The ports are written first, in hexadecimal. Linked with libvmstate_board_c.a. */
#include <stdio.h>
#include <stdlib.h>
#include <string.h>
#include "vmstate_board.h"

static uint8_t room[1 << 16];

/* A number that uses the answer. */
static uint64_t used(struct vmstate_board_answer answer)
{
    return (uint64_t)answer.value + answer.output + answer.count;
}

/* Adds up what the call returns, as often as asked. */
#define AGAIN(call) \
    for (long i = 0; i < count; i++) \
        sum += call

int main(int argc, char **argv)
{
    struct vmstate_board board = {0};
    uint64_t moment = 0, size = 0, sum = 0;
    if (argc < 3 || vmstate_board_new(&board, VMSTATE_BOARD_ISA, 4) != VMSTATE_BOARD_DONE)
        return 2;
    const char *event = argv[1];
    long count = atol(argv[2]);
    for (int i = 3; i < argc; i++) {
        char *value;
        uint16_t port = (uint16_t)strtoul(argv[i], &value, 16);
        vmstate_board_out(&board, 0, port, (uint8_t)strtoul(value + 1, NULL, 16));
    }
    size = vmstate_board_save(&board, 4, true, room, sizeof room).number;
    switch (event[0]) {
    case 'l': AGAIN(used(vmstate_board_in(&board, moment, 0x3fd))); break;
    case 't': AGAIN(used(vmstate_board_out(&board, moment, 0x3f8, 0x41))); break;
    case 'a': AGAIN(used(vmstate_board_ack(&board))); break;
    case 'c': AGAIN(used(vmstate_board_in(&board, moment, 0x40))); break;
    case 'w': AGAIN(used(vmstate_board_advance(&board, moment += 1000000))); break;
    case 'e': AGAIN(used(vmstate_board_out(&board, moment, 0x20, 0x20))); break;
    case 'n': AGAIN(used(vmstate_board_in(&board, moment, 0x80))); break;
    case 'L': AGAIN(used(vmstate_board_in(&board, moment += 1000, 0x3fd))); break;
    case 'C': AGAIN(used(vmstate_board_in(&board, moment += 1000, 0x40))); break;
    case 'E': AGAIN(used(vmstate_board_out(&board, moment += 1000, 0x20, 0x20))); break;
    case 's': AGAIN(vmstate_board_save(&board, 4, true, room, sizeof room).number); break;
    case 'r': AGAIN(vmstate_board_restore(&board, room, size).offset); break;
    default: return 2;
    }
    printf("%llu\n", (unsigned long long)sum);
    vmstate_board_free(&board);
    return 0;
}
