/* A board in a program: a guest's accesses, its interrupt, a byte on the serial line, and a second board that resumes from the stream
 * of the first. Calls that fail are made too. */
#include <stdio.h>
#include <stdlib.h>
#include <string.h>

#include "vmstate_board.h"

enum { LEVEL = 3, SET = 3, ROOM = 8192 };

static void tell(const char *what, struct vmstate_board_answer answer)
{
    printf("%s: status %u, value %u, output %u, sent", what, answer.status, answer.value, answer.output);
    for (int i = 0; i < answer.count; i++)
        printf(" %u", answer.sent[i]);
    printf("\n");
}

static void number(const char *what, struct vmstate_board_number answer)
{
    printf("%s: status %u, %llu\n", what, answer.status, (unsigned long long)answer.number);
}

static void restored(const char *what, struct vmstate_board_restored answer)
{
    printf("%s: status %u, offset %llu, device %d, reason %u, rule %u\n", what, answer.status,
           (unsigned long long)answer.offset, (int)answer.device, answer.reason, answer.rule);
}

/* What a guest does first: the master's vectors from 8 on, all inputs enabled except the slave's, a tick each 10,000 clocks, FIFOs,
 * and an interrupt for each byte that arrives. */
static void start(struct vmstate_board *board)
{
    static const struct {
        uint16_t port;
        uint8_t value;
    } writes[] = {{0x20, 0x11}, {0x21, 8},    {0x21, 4},    {0x21, 1},    {0x21, 0xec}, {0x43, 0x34},
                  {0x40, 0x10}, {0x40, 0x27}, {0x3fa, 0xc1}, {0x3f9, 1}, {0x3fb, 3}};
    for (size_t i = 0; i < sizeof writes / sizeof *writes; i++)
        vmstate_board_out(board, 1000, writes[i].port, writes[i].value);
}

/* The guest sends two bytes, takes a tick, and gets one byte of the line. */
static void run(struct vmstate_board *board, uint64_t from)
{
    vmstate_board_out(board, from, 0x3f8, 'h');
    vmstate_board_out(board, from, 0x3f8, 'i');
    tell("advance", vmstate_board_advance(board, from + 9000000));
    tell("ack", vmstate_board_ack(board));
    tell("eoi", vmstate_board_out(board, from + 9000000, 0x20, 0x20));
    tell("receive", vmstate_board_receive(board, from + 9000000, 'x'));
    tell("line status", vmstate_board_in(board, from + 9001000, 0x3fd));
    number("int", vmstate_board_int(board));
    number("room", vmstate_board_room(board));
    number("now", vmstate_board_now(board));
    number("due", vmstate_board_due(board));
}

static void wrong(struct vmstate_board *board, uint8_t *stream, size_t length)
{
    struct vmstate_board none = {0};
    uint8_t small[8] = {0};
    tell("no board", vmstate_board_in(&none, 0, 0x20));
    number("no board", vmstate_board_now(&none));
    tell("the past", vmstate_board_in(board, 0, 0x20));
    tell("no wire", vmstate_board_wire(board, 20000000, 2, true));
    number("no counter", vmstate_board_output(board, 3));
    number("no set", vmstate_board_save(board, SET + 2, true, NULL, 0));
    number("no room", vmstate_board_save(board, SET, true, small, sizeof small));
    restored("cut", vmstate_board_restore(board, stream, length / 2));
    stream[100] ^= 1;
    restored("damaged", vmstate_board_restore(board, stream, length));
    stream[100] ^= 1;
    printf("no kind: status %u\n", vmstate_board_new(&none, 2, 1));
    printf("no level: status %u\n", vmstate_board_new(&none, VMSTATE_BOARD_CLK, 3));
    vmstate_board_free(&none);
}

int main(void)
{
    struct vmstate_board board = {0}, other = {0};
    uint8_t *stream = malloc(ROOM);
    if (!stream || vmstate_board_new(&board, VMSTATE_BOARD_ISA, LEVEL) || vmstate_board_new(&other, VMSTATE_BOARD_ISA, LEVEL))
        return 1;
    start(&board);
    run(&board, 2000);
    struct vmstate_board_number bare = vmstate_board_save(&board, SET, false, stream, ROOM);
    struct vmstate_board_number saved = vmstate_board_save(&board, SET, true, stream, ROOM);
    number("saved without the description", bare);
    number("saved", saved);
    wrong(&board, stream, saved.number);
    restored("restored", vmstate_board_restore(&other, stream, saved.number));
    vmstate_board_free(&board);
    vmstate_board_free(&board);
    run(&other, 30000000);
    number("OUT of counter 2", vmstate_board_output(&other, 2));
    number("port 60", vmstate_board_has_port(&other, 0x60));
    number("character", vmstate_board_character(&other));
    vmstate_board_free(&other);
    free(stream);
    return 0;
}
