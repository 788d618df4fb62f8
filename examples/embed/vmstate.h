/* vmstate as two functions for C and C++: the static library of the crate vmstate_c.
 *
 * Nothing checks a C caller. It isn't proved that pointers and lengths are right, nor that these declarations match those of
 * crates/vmstate_c/src. */
#ifndef VMSTATE_H
#define VMSTATE_H

#include <stddef.h>
#include <stdint.h>

#ifdef __cplusplus
extern "C" {
#endif

/* Bytes. A pointer to none may be null, here and below. */
struct vmstate_bytes {
    const uint8_t *at;
    size_t length;
};

/* A file that arguments may name. */
struct vmstate_file {
    struct vmstate_bytes name, bytes;
};

/* A call: the arguments after the program's name, such as "show" and "@2"; the bytes of standard input; and the files of the
 * current folder. If two files have one name, the later counts. What a session of `play` saves is kept until the call ends;
 * vmstate_call_stored returns it. */
struct vmstate_request {
    const struct vmstate_bytes *words;
    size_t word_count;
    struct vmstate_bytes input;
    const struct vmstate_file *files;
    size_t file_count;
};

/* The status, as the program's (docs/commands.md), and the lengths of standard output (out) and standard error (notes). */
struct vmstate_answer {
    uint32_t status;
    size_t out, notes;
};

/* The status if a buffer is too small for its text. */
#define VMSTATE_TOO_SMALL 100

/* Does the command, and copies what the program would write into the caller's two buffers. Bytes after the texts are unchanged.
 *
 * If a buffer is too small for its text, the status is VMSTATE_TOO_SMALL, the lengths are the required ones, and both buffers are
 * unchanged. If memory runs out, the status is 10; if it runs out for the texts themselves, both lengths are 0 and both buffers are
 * unchanged. The statuses 5, 6 and 7 never come. A call allocates by malloc, realloc and free, and has freed everything when it
 * returns. Two threads may each make a call at the same time. */
struct vmstate_answer vmstate_call(const struct vmstate_request *request, uint8_t *out, size_t out_room,
                                   uint8_t *notes, size_t notes_room);

/* A file that a call stored: its name and its bytes, by their offsets and lengths in the buffer `bytes`. */
struct vmstate_stored {
    size_t name, name_length, bytes, length;
};

/* As vmstate_answer, with the number of stored files (files) and the length of their names and bytes together (bytes). */
struct vmstate_stored_answer {
    uint32_t status;
    size_t out, notes, files, bytes;
};

/* Does what vmstate_call does, and also returns the files that the command stored, as the line `save @2 box` of a session does.
 *
 * They are the files that the current folder has after the command and that the request doesn't have with the same bytes, whatever
 * the command's status is. They come in the order of their names, each once. `bytes` gets the name and the bytes of each, one after
 * the other, and `files` gets where they are; `file_room` counts elements of `files`. What follows in the buffers is unchanged.
 *
 * If one of the four buffers is too small, the status is VMSTATE_TOO_SMALL, the lengths are the required ones, and all buffers are
 * unchanged. A call leaves nothing behind, so the next one can do the command again with larger buffers. If memory runs out for the
 * texts or for the files, the status is 10, all lengths are 0 and all buffers are unchanged. Everything else is as for
 * vmstate_call. */
struct vmstate_stored_answer vmstate_call_stored(const struct vmstate_request *request, uint8_t *out, size_t out_room,
                                                 uint8_t *notes, size_t notes_room, struct vmstate_stored *files,
                                                 size_t file_room, uint8_t *bytes, size_t byte_room);

#ifdef __cplusplus
}
#endif

#endif
