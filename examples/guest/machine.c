#define _GNU_SOURCE
#include "machine.h"

#include <inttypes.h>
#include <stdio.h>
#include <stdlib.h>
#include <string.h>
#include <time.h>

#include "place.h"
#include "trace.h"

enum { LEVEL = 3, NEWEST = 4, PROMPT_WAIT = 5000000 };

/* A migration comes after each access whose number is a multiple of EVERY, after others with a chance of one in RANDOM, and
 * between an acknowledge and the injection with a chance of one in ACKNOWLEDGED. Each FRESHth goes to a fresh process. */
enum { EVERY = 700, RANDOM = 2000, ACKNOWLEDGED = 40, FRESH = 10 };

#define PROMPT "guest# "

/* What is typed, each at the next prompt. */
static const char *const typed[] = {
    "uname -a\n",
    "cat /proc/interrupts /proc/tty/driver/serial\n",
    "for i in 1 2 3; do sleep 1; echo second $i; done\n",
    "seq 1 300 | tr '\\n' ' '\n",
    "echo abcdefghijklmnopqrstuvwxyz0123456789 > /tmp/a; cat /tmp/a /tmp/a; wc /tmp/a\n",
    "dd if=/dev/zero bs=1k count=500 2>/dev/null | md5sum\n",
    "uptime; cat /proc/interrupts\n",
    "halt -f\n",
};

static struct place place;
static FILE *script, *trace, *console;
static bool is_migrated, is_shown;
static uint64_t now, events, accesses, every, random_ones, between, fresh, stream_bytes;
static bool output;
static uint8_t port61;
static struct timespec began;

/* Where the typist is: the line, its next byte, the moment from which on it is typed, and how much of a prompt was seen last. */
static size_t line, next, seen;
static uint64_t type_at = UINT64_MAX;

static uint64_t drawn = 7;

/* A number below `limit`, the same ones in each run. */
static uint64_t draw(uint64_t limit)
{
    drawn = drawn * UINT64_C(6364136223846793005) + UINT64_C(1442695040888963407);
    return (drawn >> 33) % limit;
}

static FILE *created(const char *folder, const char *name)
{
    char path[4096];
    snprintf(path, sizeof path, "%s/%s", folder, name);
    FILE *file = fopen(path, "w");
    if (!file)
        die("%s can't be written", path);
    return file;
}

void machine_start(const struct machine_files *files)
{
    script = created(files->folder, "script");
    trace = created(files->folder, "trace");
    console = created(files->folder, "console");
    is_migrated = files->keeper != NULL;
    is_shown = files->is_shown;
    clock_gettime(CLOCK_MONOTONIC, &began);
    place_new(&place, VMSTATE_BOARD_ISA, LEVEL, files->keeper);
}

static uint64_t seconds(void)
{
    struct timespec t;
    clock_gettime(CLOCK_MONOTONIC, &t);
    return (uint64_t)(t.tv_sec - began.tv_sec);
}

static uint64_t migrations(void)
{
    return every + random_ones + between;
}

/* A line on standard error each few seconds. */
static void show_progress(void)
{
    static uint64_t shown;
    uint64_t t = seconds();
    if (is_shown || t < shown + 5)
        return;
    shown = t;
    fprintf(stderr, "   %3" PRIu64 " s: %" PRIu64 ".%" PRIu64 " s of the guest, %" PRIu64 " accesses, %" PRIu64 " migrations\n",
            t, now / 1000000000, now / 100000000 % 10, accesses, migrations());
}

/* Looks for a prompt in what the guest sends. */
static void look(uint8_t byte)
{
    seen = byte == (uint8_t)PROMPT[seen] ? seen + 1 : byte == (uint8_t)PROMPT[0];
    if (PROMPT[seen])
        return;
    seen = 0;
    if (line < sizeof typed / sizeof *typed)
        type_at = now + PROMPT_WAIT;
}

static struct vmstate_board_answer event(struct request request)
{
    char text[TRACE_LINE];
    struct vmstate_board_answer answer = place_do(&place, request).answer;
    script_write(script, &request, now);
    fwrite(text, 1, trace_line(text, &request, &answer), trace);
    now = request.moment;
    output = answer.output;
    fwrite(answer.sent, 1, answer.count, console);
    if (is_shown && answer.count) {
        fwrite(answer.sent, 1, answer.count, stdout);
        fflush(stdout);
    }
    for (int i = 0; i < answer.count; i++)
        look(answer.sent[i]);
    if (++events % 4096 == 0)
        show_progress();
    return answer;
}

static void pass_to(uint64_t moment)
{
    if (moment > now)
        event((struct request){.kind = REQUEST_ADVANCE, .moment = moment});
}

static uint64_t ask(uint8_t kind, uint16_t about)
{
    return place_do(&place, (struct request){.kind = kind, .place = about}).number;
}

static void migrate(void)
{
    uint64_t number = migrations();
    bool is_fresh = number % FRESH == 0;
    stream_bytes += place_migrate(&place, (uint8_t)(LEVEL + number % (NEWEST - LEVEL + 1)), number % 3 == 0, is_fresh);
    fresh += is_fresh;
    if (ask(REQUEST_INT, 0) != output)
        die("the interrupt output differs after migration %" PRIu64, number);
}

/* Counts an access, and migrates the board where it is time. */
static void count_access(bool is_acknowledge)
{
    uint64_t *why = NULL;
    accesses++;
    if (!is_migrated)
        return;
    if (accesses % EVERY == 0)
        why = &every;
    else if (is_acknowledge && draw(ACKNOWLEDGED) == 0)
        why = &between;
    else if (draw(RANDOM) == 0)
        why = &random_ones;
    if (!why)
        return;
    ++*why;
    migrate();
}

/* Types the next byte, if its moment has come and the receiver has room. */
static void type(void)
{
    if (now < type_at || ask(REQUEST_ROOM, 0) == 0)
        return;
    event((struct request){.kind = REQUEST_RECEIVE, .moment = now, .value = (uint8_t)typed[line][next++]});
    type_at = now + ask(REQUEST_CHARACTER, 0);
    if (typed[line][next])
        return;
    line++;
    next = 0;
    type_at = UINT64_MAX;
}

void machine_pass(uint64_t moment)
{
    pass_to(moment);
    type();
}

/* Port 61 isn't the board's: bits 0 to 3 are as written, bit 4 turns at each read, bit 5 is OUT of counter 2. */
static uint8_t read_port61(void)
{
    port61 ^= 0x10;
    return (uint8_t)((port61 & 0x1f) | ask(REQUEST_OUTPUT, 2) << 5);
}

uint8_t machine_in(uint64_t moment, uint16_t port)
{
    pass_to(moment);
    uint8_t value = port == 0x61 ? read_port61()
                                 : event((struct request){.kind = REQUEST_IN, .moment = now, .place = port}).value;
    count_access(false);
    return value;
}

void machine_out(uint64_t moment, uint16_t port, uint8_t value)
{
    pass_to(moment);
    if (port == 0x61)
        port61 = (uint8_t)((port61 & 0x10) | (value & 0xf));
    else
        event((struct request){.kind = REQUEST_OUT, .moment = now, .place = port, .value = value});
    count_access(false);
}

uint8_t machine_acknowledge(uint64_t moment)
{
    pass_to(moment);
    uint8_t vector = event((struct request){.kind = REQUEST_ACK, .moment = now}).value;
    count_access(true);
    return vector;
}

bool machine_interrupts(void)
{
    return output;
}

void machine_end(uint64_t moment)
{
    pass_to(moment);
    place_free(&place);
    fclose(script);
    fclose(trace);
    fclose(console);
    fprintf(stderr,
            "-- halted after %" PRIu64 " s: %" PRIu64 ".%" PRIu64 " s of the guest, %" PRIu64 " accesses, %" PRIu64 " events\n",
            seconds(), now / 1000000000, now / 100000000 % 10, accesses, events);
    if (is_migrated)
        fprintf(stderr,
                "-- %" PRIu64 " migrations: %" PRIu64 " at each %dth access, %" PRIu64 " at random ones, %" PRIu64
                " between acknowledge and injection; %" PRIu64 " into a fresh process; %" PRIu64 " bytes of streams\n",
                migrations(), every, EVERY, random_ones, between, fresh, stream_bytes);
}
