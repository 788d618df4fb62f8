/* Bad input at the border: prints what the call answers, and what the buffers hold afterwards. */
#include <stdio.h>
#include <stdlib.h>
#include <string.h>

#include "vmstate.h"

#define BYTES(text) {(const uint8_t *)(text), sizeof(text) - 1}
#define NOTHING {NULL, 0}

enum { ROOM = 40 };

static void call(const char *what, const struct vmstate_request *request, size_t out_room, size_t notes_room)
{
    /* buffers of exactly this length, so that valgrind reports a byte that is written after them */
    uint8_t *out = out_room ? malloc(out_room) : NULL, *notes = notes_room ? malloc(notes_room) : NULL;
    if (out)
        memset(out, '.', out_room);
    if (notes)
        memset(notes, '.', notes_room);
    struct vmstate_answer answer = vmstate_call(request, out, out_room, notes, notes_room);
    printf("%s: status %u, lengths %zu and %zu\n", what, answer.status, answer.out, answer.notes);
    for (size_t i = 0; i < out_room; i++)
        putchar(out[i] == '\n' ? '/' : out[i]);
    putchar('|');
    for (size_t i = 0; i < notes_room; i++)
        putchar(notes[i] == '\n' ? '/' : notes[i]);
    putchar('\n');
    free(out);
    free(notes);
}

/* Does the same and prints where the stored files are, and every 512th of their bytes. */
static void call_stored(const char *what, const struct vmstate_request *request, size_t file_room, size_t byte_room)
{
    uint8_t out[ROOM], notes[ROOM], *bytes = byte_room ? malloc(byte_room) : NULL;
    struct vmstate_stored *files = file_room ? calloc(file_room, sizeof *files) : NULL;
    if (bytes)
        memset(bytes, '.', byte_room);
    struct vmstate_stored_answer answer =
        vmstate_call_stored(request, out, ROOM, notes, ROOM, files, file_room, bytes, byte_room);
    printf("%s: status %u, lengths %zu and %zu, %zu files of %zu bytes\n", what, answer.status, answer.out, answer.notes,
           answer.files, answer.bytes);
    for (size_t i = 0; i < file_room; i++)
        printf("%zu, %zu, %zu, %zu\n", files[i].name, files[i].name_length, files[i].bytes, files[i].length);
    for (size_t i = 0; i < byte_room; i += 512)
        putchar(bytes[i]);
    putchar('\n');
    free(bytes);
    free(files);
}

int main(void)
{
    static const uint8_t stream[] = "QEVM\0\0\0\3\4\0\0\0\0\5timer\0\0\0\0\0\0\0\1\0\0\0\0\0\0\0\0\x7e\0\0\0\0";
    const struct vmstate_bytes show[] = {BYTES("show"), BYTES("@0")};
    const struct vmstate_bytes other[] = {BYTES("show"), BYTES("\xff")};
    const struct vmstate_bytes empty[] = {NOTHING, NOTHING};
    const struct vmstate_bytes check[] = {BYTES("check"), BYTES("a"), BYTES("b")};
    const struct vmstate_file twice[] = {
        {BYTES("a"), BYTES("{}")}, {NOTHING, NOTHING}, {BYTES("\xff"), BYTES("{}")}, {BYTES("a"), NOTHING}};
    const struct vmstate_bytes input = {stream, sizeof stream};
    const struct vmstate_bytes play[] = {BYTES("play"), BYTES("isa-1"), BYTES("s")};
    const struct vmstate_file saves[] = {{BYTES("s"), BYTES("save @1 b\nsave @1 a\nsave @1 b\n")}, {BYTES("c"), BYTES("d")}};
    const struct vmstate_request session = {play, 3, NOTHING, saves, 2};

    call("a stream", &(struct vmstate_request){show, 2, input, NULL, 0}, ROOM, ROOM);
    call("room for it alone", &(struct vmstate_request){show, 2, input, NULL, 0}, 27, 0);
    call("a byte too little", &(struct vmstate_request){show, 2, input, NULL, 0}, 26, ROOM);
    call("no input", &(struct vmstate_request){show, 2, NOTHING, NULL, 0}, 0, ROOM);
    call("no room", &(struct vmstate_request){show, 2, NOTHING, NULL, 0}, ROOM, 0);
    call("no words", &(struct vmstate_request){NULL, 0, NOTHING, NULL, 0}, ROOM, ROOM);
    call("empty words", &(struct vmstate_request){empty, 2, NOTHING, NULL, 0}, 0, ROOM);
    call("words that aren't UTF-8", &(struct vmstate_request){other, 2, input, NULL, 0}, 0, ROOM);
    call("no files", &(struct vmstate_request){check, 3, NOTHING, NULL, 0}, 0, ROOM);
    call("a file twice, and names that are none", &(struct vmstate_request){check, 3, NOTHING, twice, 4}, 0, ROOM);
    size_t need = vmstate_call_stored(&session, NULL, 0, NULL, 0, NULL, 0, NULL, 0).bytes;
    call_stored("two files", &session, 3, need + 100);
    call_stored("room for them alone", &session, 2, need);
    call_stored("a file too little", &session, 1, need);
    call_stored("a byte too little", &session, 2, need - 1);
    call_stored("no room", &session, 0, 0);
    call_stored("nothing stored", &(struct vmstate_request){show, 2, input, NULL, 0}, 1, 1);
    return 0;
}
