/* The machine around the processor: a board isa-3, port 61, who types, and the migrations. */
#ifndef MACHINE_H
#define MACHINE_H

#include <stdbool.h>
#include <stdint.h>

#ifdef __cplusplus
extern "C" {
#endif

/* What a run reads and writes. */
struct machine_files {
    const char *folder;  /* where script, trace and console are written */
    const char *keeper;  /* the program of a fresh process; null: the board is never migrated */
    bool is_shown;       /* whether the console is shown on standard output too */
};

/* Makes the board at power on. */
void machine_start(const struct machine_files *files);

/* The guest reads or writes a byte of a port. */
uint8_t machine_in(uint64_t moment, uint16_t port);
void machine_out(uint64_t moment, uint16_t port, uint8_t value);

/* Time has passed up to a moment: bytes may leave, and one may be typed. */
void machine_pass(uint64_t moment);

/* The processor takes an interrupt. Returns the vector. The board may be migrated before this call returns. */
uint8_t machine_acknowledge(uint64_t moment);

/* Whether the interrupt output is high. */
bool machine_interrupts(void);

/* Prints what was done, and closes the files. */
void machine_end(uint64_t moment);

#ifdef __cplusplus
}
#endif

#endif
