/* Random boards against probes: is vmstate_board_due the least wait that shows something?
 *
 *     kit=$(dirname "$(rt doc)")
 *     gcc -O2 -I examples/embed -o due bench/due.c crates/vmstate_board_c/out/libvmstate_board_c.a "$kit/c/liblibc_c.a"
 *     ./due [BOARDS] [SEED]
 *
 * A board of a random kind and level gets random accesses. After each one vmstate_board_due answers, and copies of the board, made
 * through a stream, wait: one as long as the answer, one a nanosecond less, and some for random shorter times. The first must show
 * something, a changed output or bytes, and no other may. If the answer is that no wait shows anything, copies wait for random
 * times. The status is 1 if a copy did otherwise. */
#include "vmstate_board.h"

#include <inttypes.h>
#include <stdio.h>
#include <stdlib.h>

#define PROBES 8

static uint64_t state;

static uint64_t random64(void)
{
    state ^= state << 13;
    state ^= state >> 7;
    state ^= state << 17;
    return state * UINT64_C(2685821657736338717);
}

static uint64_t below(uint64_t limit) { return (random64() >> 11) % limit; }

/* Returns a wait of random length: each number of binary digits is as likely as another. */
static uint64_t some_wait(void) { return random64() >> (1 + below(63)); }

static void check(int is, const char *what)
{
    if (!is) {
        fprintf(stderr, "due: %s\n", what);
        exit(2);
    }
}

static uint64_t number_of(struct vmstate_board_number number)
{
    check(number.status == VMSTATE_BOARD_DONE, "a question was not answered");
    return number.number;
}

static void out(struct vmstate_board *board, uint16_t port, uint8_t value)
{
    check(vmstate_board_out(board, number_of(vmstate_board_now(board)), port, value).status == 0, "a write failed");
}

/* Makes both interrupt controllers ready for interrupts, with a mask. */
static void controllers(struct vmstate_board *board, uint8_t mask)
{
    out(board, 0x20, 0x11), out(board, 0x21, 0x08), out(board, 0x21, 0x04), out(board, 0x21, 0x01);
    out(board, 0xa0, 0x11), out(board, 0xa1, 0x70), out(board, 0xa1, 0x02), out(board, 0xa1, 0x01);
    out(board, 0x21, mask), out(board, 0xa1, mask & 0x0f);
}

static void counter(struct vmstate_board *board)
{
    uint8_t which = (uint8_t)below(4) == 0 ? (uint8_t)below(3) : 0;
    uint8_t access = (uint8_t)(1 + below(3));
    out(board, 0x43, (uint8_t)(which << 6 | access << 4 | below(8) << 1));
    if (below(8) != 0) {
        out(board, (uint16_t)(0x40 + which), (uint8_t)(below(2) ? below(8) : below(256)));
        if (access == 3)
            out(board, (uint16_t)(0x40 + which), (uint8_t)(below(2) ? 0 : below(256)));
    }
}

static void line(struct vmstate_board *board)
{
    out(board, 0x3fb, 0x80), out(board, 0x3f8, (uint8_t)below(4)), out(board, 0x3f9, (uint8_t)(below(8) == 0));
    out(board, 0x3fb, (uint8_t)below(64)), out(board, 0x3f9, (uint8_t)below(16));
    out(board, 0x3fc, below(2) ? 0x10 : 0x0b), out(board, 0x3fa, (uint8_t)(below(4) ? 1 | below(4) << 6 : 0));
}

static void clock_chip(struct vmstate_board *board)
{
    out(board, 0x70, 0x0a), out(board, 0x71, (uint8_t)(0x20 | below(16)));
    out(board, 0x70, 0x0b), out(board, 0x71, (uint8_t)(below(4) ? 0x42 : 0x02));
    out(board, 0x70, 0x0c);
    if (below(2))
        vmstate_board_in(board, number_of(vmstate_board_now(board)), 0x71);
}

/* Makes a random access. */
static void happen(struct vmstate_board *board)
{
    static const uint16_t ports[] = { 0x20, 0x21, 0xa0, 0xa1, 0x40, 0x41, 0x42, 0x43, 0x3f8, 0x3f9, 0x3fa, 0x3fb, 0x3fc, 0x3fd, 0x70, 0x71 };
    uint64_t now = number_of(vmstate_board_now(board));
    switch (below(16)) {
    case 0: controllers(board, (uint8_t)(below(2) ? 0 : below(256))); break;
    case 1: case 2: counter(board); break;
    case 3: line(board); break;
    case 4: clock_chip(board); break;
    case 5: case 6: case 7: for (uint64_t n = 1 + below(4); n > 0; n--) out(board, 0x3f8, (uint8_t)below(256)); break;
    case 8: vmstate_board_receive(board, now, (uint8_t)below(256)); break;
    case 9: vmstate_board_ack(board); out(board, 0x20, 0x20), out(board, 0xa0, 0x20); break;
    case 10: vmstate_board_in(board, now, ports[below(16)]); break;
    case 11: out(board, ports[below(16)], (uint8_t)below(256)); break;
    case 12: vmstate_board_wire(board, now, (uint8_t)(8 + below(8)), below(2)); break;
    default: {
        uint64_t wait = some_wait() >> (below(8) ? 30 : 1);
        if (now <= VMSTATE_BOARD_LAST - VMSTATE_BOARD_LAST / 4)
            vmstate_board_advance(board, now + wait);
    }
    }
}

/* Returns whether a wait of a copy shows something. */
static bool shows(const uint8_t *stream, size_t size, uint8_t kind, uint8_t level, uint64_t wait)
{
    static struct vmstate_board copies[2][5];
    struct vmstate_board *copy = &copies[kind][level];
    if (!copy->made)
        check(vmstate_board_new(copy, kind, level) == VMSTATE_BOARD_DONE, "out of memory");
    check(vmstate_board_restore(copy, stream, size).status == VMSTATE_BOARD_DONE, "a copy was refused");
    uint64_t output = number_of(vmstate_board_int(copy));
    uint64_t now = number_of(vmstate_board_now(copy));
    struct vmstate_board_answer answer = vmstate_board_advance(copy, wait > UINT64_MAX - now ? UINT64_MAX : now + wait);
    check(answer.status == VMSTATE_BOARD_DONE, "a wait failed");
    return answer.output != output || answer.count != 0;
}

/* Probes a board. Returns the number of copies that did otherwise than the answer says. */
static uint64_t probed(struct vmstate_board *board, uint8_t kind, uint8_t level, uint64_t *due_boards)
{
    static uint8_t stream[1 << 16];
    uint64_t wrong = 0;
    struct vmstate_board_number saved =
        vmstate_board_save(board, (uint8_t)(kind == VMSTATE_BOARD_ISA ? 4 : 2), false, stream, sizeof stream);
    size_t size = (size_t)number_of(saved);
    uint64_t due = number_of(vmstate_board_due(board));
    if (due == VMSTATE_BOARD_NEVER) {
        for (int n = 0; n < PROBES; n++)
            wrong += shows(stream, size, kind, level, some_wait());
        return wrong;
    }
    *due_boards += 1;
    wrong += !shows(stream, size, kind, level, due);
    if (due > 0) {
        wrong += shows(stream, size, kind, level, due - 1);
        for (int n = 2; n < PROBES; n++)
            wrong += shows(stream, size, kind, level, n % 2 ? below(due) : some_wait() % due);
    }
    return wrong;
}

int main(int argc, char **argv)
{
    uint64_t boards = argc > 1 ? strtoull(argv[1], NULL, 10) : 240000;
    uint64_t wrong = 0, due_boards = 0;
    struct vmstate_board board = { 0 };
    state = argc > 2 ? strtoull(argv[2], NULL, 10) | 1 : 1;
    for (uint64_t n = 0; n < boards;) {
        uint8_t kind = (uint8_t)(below(3) == 0);
        uint8_t level = (uint8_t)(1 + below(kind == VMSTATE_BOARD_ISA ? 4 : 2));
        check(vmstate_board_new(&board, kind, level) == VMSTATE_BOARD_DONE, "out of memory");
        if (below(8) != 0)
            controllers(&board, 0);
        for (int k = 0; k < 40 && n < boards; k++, n++) {
            happen(&board);
            uint64_t more = probed(&board, kind, level, &due_boards);
            if (more != 0 && wrong == 0)
                fprintf(stderr, "due: board %" PRIu64 " is the first that did otherwise\n", n);
            wrong += more;
        }
    }
    vmstate_board_free(&board);
    printf("%" PRIu64 " boards, %" PRIu64 " due: %" PRIu64 " probes wrong\n", boards, due_boards, wrong);
    return wrong != 0;
}
