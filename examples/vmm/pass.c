/* The guest is passed to a fresh process: the RAM stays where it is; the facts, the board and the processor go through a pipe. */
#include "vmm.h"

#include <fcntl.h>
#include <spawn.h>
#include <stdio.h>
#include <sys/wait.h>
#include <unistd.h>

extern char **environ;
static uint8_t stream[16384]; /* the board's */

/* Moves bytes to or from a pipe. Returns false if the other end is closed. */
static bool move(int file, uint8_t *bytes, size_t size, bool is_written)
{
    for (ssize_t count; size > 0; bytes += count, size -= count)
        if ((count = is_written ? write(file, bytes, size) : read(file, bytes, size)) <= 0)
            return false;
    return true;
}

/* Writes a part of what is passed on: its length, then its bytes. Returns false if the other process is gone. */
bool put(int to, const void *bytes, uint32_t size)
{
    return move(to, (uint8_t *)&size, sizeof size, true) && move(to, (uint8_t *)bytes, size, true);
}

/* Reads a part of at most `room` bytes, and returns its length. */
uint32_t get(int from, void *bytes, uint32_t room)
{
    uint32_t size = 0;
    if (!move(from, (uint8_t *)&size, sizeof size, false) || size > room || !move(from, bytes, size, false))
        errx(1, "what is passed on has another form");
    return size;
}

/* Starts the program that is to take the guest. It inherits three files, whose numbers are in its arguments. */
static pid_t start(const struct vmm *vmm, int state, int reply)
{
    const int inherited[] = {state, vmm->ram_file, reply};
    char files[64], set[8], every[32], *program = (char *)vmm->program;
    char *words[] = {program, "--resume", files, "--set", set, "--upgrade", every, "--program", program, NULL};
    snprintf(files, sizeof files, "%d,%d,%d", state, vmm->ram_file, reply);
    snprintf(set, sizeof set, "%u", vmm->set);
    snprintf(every, sizeof every, "%lu", vmm->every);
    for (int i = 0; i < 3; i++)
        checked(fcntl(inherited[i], F_SETFD, 0), "fcntl");
    pid_t child;
    int error = posix_spawnp(&child, program, NULL, NULL, words, environ);
    close(state);
    close(reply);
    return error ? -1 : child;
}

/* Offers the guest to a fresh process. If that takes it, this process ends; else the guest runs on here. */
void pass_on(struct vmm *vmm)
{
    int state[2], reply[2];
    uint8_t taken;
    finish_access(vmm);
    vmm->facts.offered_at = vmm->facts.exits;
    vmm->facts.on_their_way += vmm->was_given;
    vmm->facts.passed++;
    struct vmstate_board_number saved = vmstate_board_save(&vmm->board, vmm->set, true, stream, sizeof stream);
    if (saved.status != VMSTATE_BOARD_DONE)
        warnx("the board isn't saved: status %u", saved.status);
    checked(pipe2(state, O_CLOEXEC), "pipe");
    checked(pipe2(reply, O_CLOEXEC), "pipe");
    pid_t child = start(vmm, state[0], reply[1]);
    bool is_offered = child > 0 && saved.status == VMSTATE_BOARD_DONE && put(state[1], &vmm->facts, sizeof vmm->facts) &&
                      put(state[1], stream, saved.number) && save_processor(vmm, state[1]);
    close(state[1]);
    if (is_offered && move(reply[0], &taken, 1, false))
        _exit(PASSED_ON);
    close(reply[0]);
    if (child > 0)
        waitpid(child, NULL, 0);
    vmm->facts.passed--;
    vmm->facts.refused++;
}

/* Takes a guest that another process offers. Whatever is wrong ends this process, and the guest runs on in the other. */
void resume(struct vmm *vmm)
{
    int state, ram_file, reply;
    if (sscanf(vmm->resumed, "%d,%d,%d", &state, &ram_file, &reply) != 3)
        errx(1, "%s: not three files", vmm->resumed);
    checked(fcntl(ram_file, F_SETFD, FD_CLOEXEC), "the RAM's file");
    if (get(state, &vmm->facts, sizeof vmm->facts) != sizeof vmm->facts || vmm->facts.version != FACTS_VERSION)
        errx(1, "the guest is offered by another version");
    expect_done(vmstate_board_new(&vmm->board, vmm->facts.kind, vmm->facts.level), "new");
    struct vmstate_board_restored restored = vmstate_board_restore(&vmm->board, stream, get(state, stream, sizeof stream));
    if (restored.status != VMSTATE_BOARD_DONE)
        errx(1, "the board isn't restored: status %u, offset %lu, device %d, reason %u, rule %u", restored.status, restored.offset,
             (int)restored.device, restored.reason, restored.rule);
    make_machine(vmm, ram_file);
    restore_processor(vmm, state);
    checked(write(reply, "", 1), "the answer");
    close(state);
    close(reply);
}
