/* Options, and the process that waits for those that have the guest. */
#include "vmm.h"

#include <getopt.h>
#include <signal.h>
#include <stdio.h>
#include <stdlib.h>
#include <string.h>
#include <sys/mman.h>
#include <sys/prctl.h>
#include <sys/wait.h>
#include <unistd.h>

enum { MIB = 1 << 20, MOST_RAM = 2048, ISA_SET = 4, CLK_SET = 2 };

static _Noreturn void usage(void)
{
    fputs("usage: vmm [--board isa-1..isa-4|clk-1|clk-2] [--clock real|steps] [--ram MIB] [--initrd FILE] [--append TEXT]\n"
          "           [--upgrade EXITS] [--program FILE] [--set NUMBER] GUEST\n", stderr);
    exit(2);
}

int checked(int result, const char *what)
{
    if (result < 0)
        err(1, "%s", what);
    return result;
}

static uint64_t number(const char *text, uint64_t most)
{
    char *end;
    uint64_t number = strtoull(text, &end, 10);
    if (end == text || *end || number > most)
        usage();
    return number;
}

static void read_options(int count, char **words, struct vmm *vmm)
{
    static const struct option NAMES[] = {
        {"board", 1, 0, 'b'}, {"clock", 1, 0, 'c'},   {"ram", 1, 0, 'm'},     {"initrd", 1, 0, 'i'}, {"append", 1, 0, 'a'},
        {"set", 1, 0, 's'},   {"upgrade", 1, 0, 'u'}, {"program", 1, 0, 'p'}, {"resume", 1, 0, 'r'}, {0},
    };
    for (int name; (name = getopt_long(count, words, "", NAMES, NULL)) >= 0;) {
        switch (name) {
        case 'b':
            if (strncmp(optarg, "isa-", 4) != 0 && strncmp(optarg, "clk-", 4) != 0)
                usage();
            vmm->facts.kind = *optarg == 'i' ? VMSTATE_BOARD_ISA : VMSTATE_BOARD_CLK;
            vmm->facts.level = number(optarg + 4, UINT8_MAX);
            break;
        case 'c': vmm->facts.is_real = strcmp(optarg, "steps") != 0; break;
        case 'm': vmm->facts.ram_size = number(optarg, MOST_RAM) * MIB; break;
        case 'i': vmm->initrd = optarg; break;
        case 'a': vmm->append = optarg; break;
        case 's': vmm->set = number(optarg, UINT8_MAX); break;
        case 'u': vmm->every = number(optarg, UINT64_MAX); break;
        case 'p': vmm->program = optarg; break;
        case 'r': vmm->resumed = optarg; break;
        default: usage();
        }
    }
    vmm->guest = words[optind];
    if (count - optind != !vmm->resumed || vmm->facts.ram_size < MIB)
        usage();
    vmm->set = vmm->set ? vmm->set : vmm->facts.kind == VMSTATE_BOARD_ISA ? ISA_SET : CLK_SET;
}

/* Waits for the processes that have the guest, which become children of this one in turn. Returns the status of the last. */
static int supervise(void)
{
    int status, last = 0;
    while (wait(&status) > 0)
        last = WIFEXITED(status) && WEXITSTATUS(status) == PASSED_ON ? last : status;
    return WIFEXITED(last) ? WEXITSTATUS(last) : 1;
}

int main(int count, char **words)
{
    struct vmm vmm = {
        .facts = {.version = FACTS_VERSION, .kind = VMSTATE_BOARD_ISA, .level = 3, .is_real = true, .ram_size = 64 * MIB},
        .program = words[0], .append = "",
    };
    read_options(count, words, &vmm);
    checked(prctl(PR_SET_CHILD_SUBREAPER, !vmm.resumed), "prctl");
    if (!vmm.resumed && checked(fork(), "fork") > 0)
        return supervise();
    signal(SIGPIPE, SIG_IGN);
    vmm.resumed ? resume(&vmm) : begin(&vmm);
    run_guest(&vmm);
    vmstate_board_free(&vmm.board);
    warnx("the guest ended after %lu exits: passed on %lu times, refused %lu times, with an interrupt on its way %lu times",
          vmm.facts.exits, vmm.facts.passed, vmm.facts.refused, vmm.facts.on_their_way);
    return 0;
}
