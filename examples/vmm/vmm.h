/* A virtual machine monitor (VMM) over KVM whose devices are a board of libvmstate_board_c.a. docs/vmm.md goes through it. */
#pragma once
#define _GNU_SOURCE
#include <err.h>
#include <linux/kvm.h>
#include <stdbool.h>
#include <stddef.h>
#include <stdint.h>

#include "vmstate_board.h"

/* What the VMM itself knows of the guest, beside RAM, processor and board. It is passed on with them. */
struct facts {
    uint32_t version;      /* FACTS_VERSION: of this struct, and of what is passed on in which order */
    uint8_t kind, level;   /* the board's */
    uint8_t port61;        /* bits 0 to 4 of port 61 */
    bool is_real;          /* the clock is the host's; else each access takes ACCESS_TIME */
    uint64_t ram_size;     /* in bytes */
    uint64_t paced_until;  /* the moment before which no byte may arrive */
    uint64_t exits;        /* how often the guest stopped */
    uint64_t offered_at;   /* the exit at which it was last offered to another process */
    uint64_t passed;       /* how often a process took it */
    uint64_t refused;      /* how often one refused it */
    uint64_t on_their_way; /* how often it was offered with an interrupt given to the processor, which hadn't taken it yet */
};

#define NEVER UINT64_MAX
enum { FACTS_VERSION = 1, PASSED_ON = 64 /* the status of a process whose guest runs on in another */ };

struct vmm {
    const char *guest, *initrd, *append, *resumed;
    const char *program;  /* the program that the guest is passed to */
    uint64_t every;       /* exits between two offers of the guest; 0: none */
    uint8_t set;          /* the set under which the board is saved */
    struct facts facts;
    struct vmstate_board board;
    int kvm, vm, cpu;
    struct kvm_run *run;  /* shared with KVM: why the guest stopped, and whether it takes an interrupt */
    int ram_file;         /* the RAM is a file in memory, so that another process can map it too */
    uint8_t *ram;
    bool is_interrupting; /* the board's interrupt output */
    bool was_given;       /* the processor was given an interrupt since it last ran */
    bool is_over;         /* the guest has ended */
    uint64_t zero;        /* real clock: the host's nanoseconds at moment 0 */
    uint64_t look_at;     /* the moment at which to look for a typed byte again; NEVER where standard input has ended */
};

int checked(int result, const char *what); /* ends the process with a message if `result` is below 0, else returns it */
void make_machine(struct vmm *vmm, int ram_file);
bool save_processor(const struct vmm *vmm, int to);
void restore_processor(const struct vmm *vmm, int from);
void begin(struct vmm *vmm);
void expect_done(uint32_t status, const char *what);
uint8_t take(struct vmm *vmm, struct vmstate_board_answer answer);
void finish_access(struct vmm *vmm);
void run_guest(struct vmm *vmm);
bool put(int to, const void *bytes, uint32_t size);
uint32_t get(int from, void *bytes, uint32_t room);
void pass_on(struct vmm *vmm);
void resume(struct vmm *vmm);
