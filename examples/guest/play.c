/* play BOARD EVERY SCRIPT TRACE: makes the events of a script on a board, and compares what it answers with a trace.
 *
 * If EVERY isn't 0, the board is saved after so many events, freed, and restored in a new one. The sets are in turn those from
 * the board's level on; each second stream ends with the description of itself. The status is 0 if all answers are as in the
 * trace. */
#include <inttypes.h>
#include <stdlib.h>
#include <string.h>

#include "place.h"
#include "trace.h"

static FILE *opened(const char *name)
{
    FILE *file = fopen(name, "r");
    if (!file)
        die("%s can't be read", name);
    return file;
}

static void made(struct place *place, const char *name)
{
    int level = 0, end = 0;
    bool is_clock = strncmp(name, "clk-", 4) == 0;
    if (!is_clock && strncmp(name, "isa-", 4))
        die("there is no board %s", name);
    if (sscanf(name + 4, "%1d%n", &level, &end) != 1 || name[4 + end])
        die("there is no board %s", name);
    place_new(place, is_clock ? VMSTATE_BOARD_CLK : VMSTATE_BOARD_ISA, (uint8_t)level, NULL);
}

/* The set of a migration: those from the board's level to the newest, in turn. */
static uint8_t set_of(const struct place *place, uint64_t migrations)
{
    unsigned newest = place->kind == VMSTATE_BOARD_ISA ? 4 : 2;
    return (uint8_t)(place->level + migrations % (newest - place->level + 1));
}

/* Makes the event of a line, and compares its answer. Returns the board's moment. */
static uint64_t step(struct place *place, const char *line, const char *wanted, uint64_t now, uint64_t number)
{
    struct request request;
    char got[TRACE_LINE + 1];
    if (!script_read(line, now, &request))
        die("line %" PRIu64 " is no event: %s", number, line);
    struct reply reply = place_do(place, request);
    got[trace_line(got, &request, &reply.answer)] = 0;
    if (strcmp(got, wanted))
        die("line %" PRIu64 ", %.*s: got %.*s, wanted %.*s", number, (int)strcspn(line, "\n"), line, (int)strcspn(got, "\n"), got,
            (int)strcspn(wanted, "\n"), wanted);
    return request.moment;
}

int main(int count, char **words)
{
    char line[64], wanted[64];
    struct place place;
    uint64_t now = 0, events = 0, migrations = 0;
    if (count != 5)
        die("play BOARD EVERY SCRIPT TRACE");
    uint64_t every = strtoull(words[2], NULL, 10);
    FILE *script = opened(words[3]), *trace = opened(words[4]);
    made(&place, words[1]);
    while (fgets(line, sizeof line, script)) {
        if (!fgets(wanted, sizeof wanted, trace))
            die("the trace ends after %" PRIu64 " lines", events);
        now = step(&place, line, wanted, now, ++events);
        if (every && events % every == 0) {
            place_migrate(&place, set_of(&place, migrations), migrations % 2 == 1, false);
            migrations++;
        }
    }
    if (fgets(wanted, sizeof wanted, trace))
        die("the script ends after %" PRIu64 " lines", events);
    place_free(&place);
    fclose(script);
    fclose(trace);
    printf("%s: %" PRIu64 " events, %" PRIu64 " migrations, each answer as recorded\n", words[1], events, migrations);
    return 0;
}
