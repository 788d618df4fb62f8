/* Loads a snapshot, refuses a damaged one with its offset, calls again if a buffer was too small, writes the state of a board for
 * an older program, and keeps what a session saved for another one.
 *
 *     embed SET STREAM SAVED          a description file, a stream of it, and what a board saved
 *     embed SET STREAM SAVED CALLS    makes CALLS calls, and prints the time of one and by how much memory grew
 */
#include <stdio.h>
#include <stdlib.h>
#include <string.h>
#include <sys/resource.h>
#include <time.h>

#include "vmstate.h"

#define BYTES(text) {(const uint8_t *)(text), sizeof(text) - 1}

enum { FIRST_ROOM = 16, NOTES_ROOM = 256, TRACE_ROOM = 256, KEPT_ROOM = 8192 };

static struct vmstate_bytes read_file(const char *path)
{
    FILE *file = fopen(path, "rb");
    if (!file || fseek(file, 0, SEEK_END)) {
        perror(path);
        exit(2);
    }
    long length = ftell(file);
    uint8_t *at = malloc(length + 1);
    rewind(file);
    if (!at || fread(at, 1, length, file) != (size_t)length) {
        perror(path);
        exit(2);
    }
    fclose(file);
    return (struct vmstate_bytes){at, length};
}

/* What the command `show set` prints of a stream. */
static struct vmstate_answer show(struct vmstate_bytes set, struct vmstate_bytes stream, uint8_t *out, size_t room,
                                  uint8_t *notes)
{
    const struct vmstate_bytes words[] = {BYTES("show"), BYTES("set")};
    const struct vmstate_file files[] = {{BYTES("set"), set}};
    const struct vmstate_request request = {words, 2, stream, files, 1};
    return vmstate_call(&request, out, room, notes, NOTES_ROOM);
}

/* A stream that has lost its last quarter. */
static struct vmstate_bytes damaged(struct vmstate_bytes stream)
{
    return (struct vmstate_bytes){stream.at, stream.length - stream.length / 4};
}

/* Prints what `show` answers for `stream`, on standard output and on standard error. */
static void tell(const char *what, struct vmstate_bytes set, struct vmstate_bytes stream)
{
    size_t room = FIRST_ROOM;
    uint8_t notes[NOTES_ROOM], *out = malloc(room);
    struct vmstate_answer answer = show(set, stream, out, room, notes);
    if (answer.status == VMSTATE_TOO_SMALL) {
        printf("%s: %zu bytes are too few\n", what, room);
        room = answer.out;
        out = realloc(out, room);
        answer = show(set, stream, out, room, notes);
    }
    printf("%s: status %u\n%.*s%.*s", what, answer.status, (int)answer.out, (char *)out, (int)answer.notes,
           (char *)notes);
    free(out);
}

/* What the command `convert TARGET` writes for the stream of a board. */
static struct vmstate_answer convert(const char *target, struct vmstate_bytes saved, uint8_t *out, size_t room,
                                     uint8_t *notes)
{
    const struct vmstate_bytes words[] = {BYTES("convert"), {(const uint8_t *)target, strlen(target)}};
    const struct vmstate_request request = {words, 2, saved, NULL, 0};
    return vmstate_call(&request, out, room, notes, NOTES_ROOM);
}

/* Converts the board's stream for an older set, into a buffer of exactly the required length. Prints the status and the length, and
 * what would be lost. */
static void rewrite(const char *target, struct vmstate_bytes saved)
{
    uint8_t notes[NOTES_ROOM], *out = NULL;
    struct vmstate_answer answer = convert(target, saved, out, 0, notes);
    if (answer.status == VMSTATE_TOO_SMALL) {
        out = malloc(answer.out);
        answer = convert(target, saved, out, answer.out, notes);
    }
    printf("under %s: status %u, %zu bytes\n%.*s", target, answer.status, answer.out, (int)answer.notes, (char *)notes);
    free(out);
}

/* Plays a script on a board isa-2, which may restore from `file`. Returns the first saved file; its bytes are in `kept`. */
static struct vmstate_file play(const char *script, struct vmstate_file file, uint8_t *kept)
{
    const struct vmstate_bytes words[] = {BYTES("play"), BYTES("isa-2"), BYTES("script")};
    const struct vmstate_file files[] = {{BYTES("script"), {(const uint8_t *)script, strlen(script)}}, file};
    const struct vmstate_request request = {words, 3, {NULL, 0}, files, 2};
    uint8_t out[TRACE_ROOM], notes[NOTES_ROOM];
    struct vmstate_stored stored = {0, 0, 0, 0};
    struct vmstate_stored_answer answer =
        vmstate_call_stored(&request, out, sizeof out, notes, sizeof notes, &stored, 1, kept, KEPT_ROOM);
    if (answer.status == VMSTATE_TOO_SMALL) {
        fprintf(stderr, "session: a buffer is too small\n");
        exit(2);
    }
    printf("session: status %u, %zu files\n%.*s%.*s", answer.status, answer.files, (int)answer.out, (char *)out,
           (int)answer.notes, (char *)notes);
    return (struct vmstate_file){{kept + stored.name, stored.name_length}, {kept + stored.bytes, stored.length}};
}

/* A session writes a byte to the serial port and saves its board. Another restores it, and the byte leaves its port. */
static void sessions(void)
{
    const struct vmstate_file none = {{NULL, 0}, {NULL, 0}};
    static uint8_t kept[KEPT_ROOM], more[KEPT_ROOM];
    struct vmstate_file saved = play("out 03f8 68\nsave @2 box\n", none, kept);
    printf("%.*s: %zu bytes\n", (int)saved.name.length, (char *)saved.name.at, saved.bytes.length);
    play("restore box\nwait 10000000\n", saved, more);
}

static long most_memory(void)
{
    struct rusage usage;
    getrusage(RUSAGE_SELF, &usage);
    return usage.ru_maxrss;
}

static double seconds(void)
{
    struct timespec now;
    clock_gettime(CLOCK_MONOTONIC, &now);
    return now.tv_sec + now.tv_nsec / 1e9;
}

/* Makes many calls, of which every second is refused. */
static void repeat(struct vmstate_bytes set, struct vmstate_bytes stream, long calls)
{
    uint8_t out[4096], notes[NOTES_ROOM];
    struct vmstate_bytes cut = damaged(stream);
    long done = 0, grown = 0;
    double begin = seconds();
    for (long call = 0; call < calls; call++) {
        done += show(set, call % 2 ? cut : stream, out, sizeof out, notes).status == 0;
        if (call == calls / 10)
            grown = most_memory();
    }
    printf("%ld calls, %ld done, %.2f us a call, memory grew by %ld KiB after the first tenth\n", calls, done,
           (seconds() - begin) * 1e6 / calls, most_memory() - grown);
}

int main(int count, char **words)
{
    if (count < 4) {
        fprintf(stderr, "usage: embed SET STREAM SAVED [CALLS]\n");
        return 2;
    }
    struct vmstate_bytes set = read_file(words[1]), stream = read_file(words[2]), saved = read_file(words[3]);
    if (count > 4) {
        repeat(set, stream, atol(words[4]));
    } else {
        tell("whole", set, stream);
        tell("damaged", set, damaged(stream));
        rewrite("@3", saved);
        rewrite("@1", saved);
        sessions();
    }
    free((void *)set.at);
    free((void *)stream.at);
    free((void *)saved.at);
    return 0;
}
