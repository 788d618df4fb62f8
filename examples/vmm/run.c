/* The guest runs until it stops, and the VMM does what it stopped for: the clock, typed bytes, interrupts, ports. */
#include "vmm.h"

#include <errno.h>
#include <poll.h>
#include <signal.h>
#include <string.h>
#include <sys/ioctl.h>
#include <sys/time.h>
#include <time.h>
#include <unistd.h>

enum {
    SECOND = 1000000000,   /* in nanoseconds, as what follows */
    ACCESS_TIME = 1000,    /* of an access with the clock of steps */
    LOOK_EACH = 1000000,   /* between two looks for a typed byte while the guest runs */
    SPINNING = SECOND / 4, /* clock of steps: the processor's time without an access after which time passes */
    PORT_61 = 0x61         /* the PC's own port, which the board leaves to the VMM */
};

/* Ends the process if the board answers a call by another status. */
void expect_done(uint32_t status, const char *what)
{
    if (status != VMSTATE_BOARD_DONE)
        errx(1, "%s: the board answers status %u", what, status);
}

/* Takes an event's answer: returns its value, writes the bytes that left the serial port, and keeps the interrupt output. */
uint8_t take(struct vmm *vmm, struct vmstate_board_answer answer)
{
    expect_done(answer.status, "event");
    for (int at = 0; at < answer.count;)
        at += checked(write(STDOUT_FILENO, answer.sent + at, answer.count - at), "standard output");
    vmm->is_interrupting = answer.output;
    return answer.value;
}

/* Returns the number that answers a question. */
static uint64_t number_of(struct vmstate_board_number answer)
{
    expect_done(answer.status, "question");
    return answer.number;
}

static uint64_t host_time(void)
{
    struct timespec time;
    clock_gettime(CLOCK_MONOTONIC, &time);
    return (uint64_t)time.tv_sec * SECOND + time.tv_nsec;
}

/* Returns the present moment. It is never before the board's, because the board refuses the past. */
static uint64_t moment(struct vmm *vmm)
{
    uint64_t board = number_of(vmstate_board_now(&vmm->board)), host = host_time() - vmm->zero;
    return vmm->facts.is_real && host > board ? host : board;
}

static uint64_t earlier(uint64_t first, uint64_t second)
{
    return first < second ? first : second;
}

/* Returns the moment at which time must pass on the board, even if the guest makes no access until then. It is the earliest of
 * three: when the board shows something, when the next typed byte may arrive, and `longest` nanoseconds from now. */
static uint64_t next_wake(struct vmm *vmm, uint64_t longest)
{
    uint64_t now = moment(vmm), paced = vmm->facts.paced_until, due = number_of(vmstate_board_due(&vmm->board));
    if (due != VMSTATE_BOARD_NEVER)
        due += number_of(vmstate_board_now(&vmm->board));
    return earlier(due, earlier(now < paced ? paced : NEVER, now + longest));
}

/* Lets time pass on the board: to the present with the real clock, to the next wake with the clock of steps. */
static void pass_time(struct vmm *vmm)
{
    take(vmm, vmstate_board_advance(&vmm->board, vmm->facts.is_real ? moment(vmm) : next_wake(vmm, LOOK_EACH)));
}

static struct kvm_run *running;

/* The timer's signal stops the guest. If it isn't running yet, it stops as soon as it is entered, so no signal comes too early. */
static void stop_guest(int signal)
{
    (void)signal;
    running->immediate_exit = 1;
}

/* Returns the nanoseconds from now to the next wake, with the real clock. */
static uint64_t time_left(struct vmm *vmm, uint64_t longest)
{
    uint64_t wake = next_wake(vmm, longest), now = moment(vmm);
    return wake > now ? wake - now : 0;
}

/* Sets the host's timer to the next wake. The clock of steps needs it only for a guest that computes without an access. */
static void set_timer(struct vmm *vmm)
{
    uint64_t left = vmm->facts.is_real ? time_left(vmm, LOOK_EACH) : SPINNING;
    struct itimerval timer = {{0, 0}, {left / SECOND, left % SECOND / 1001 + 1}};
    checked(setitimer(vmm->facts.is_real ? ITIMER_REAL : ITIMER_PROF, &timer, NULL), "setitimer");
}

/* Takes a byte from standard input to the serial line, if one is there, the line is free again, and the guest's port has room. It
 * is read no earlier, so a guest that is passed on leaves no byte behind. With `waits` it waits for one until the next wake. */
static void receive(struct vmm *vmm, bool waits)
{
    uint64_t now = moment(vmm), left = waits ? time_left(vmm, SECOND) : 0;
    bool can_arrive = vmm->look_at != NEVER && now >= vmm->facts.paced_until && number_of(vmstate_board_room(&vmm->board)) > 0;
    struct pollfd input = {can_arrive ? STDIN_FILENO : -1, POLLIN, 0};
    uint8_t byte;
    if (!waits && (!can_arrive || now < vmm->look_at))
        return;
    if (ppoll(&input, 1, &(struct timespec){left / SECOND, left % SECOND}, NULL) <= 0) {
        vmm->look_at = can_arrive ? now + LOOK_EACH : vmm->look_at;
    } else if (read(STDIN_FILENO, &byte, 1) != 1) {
        vmm->look_at = NEVER;
    } else {
        take(vmm, vmstate_board_receive(&vmm->board, now = moment(vmm), byte));
        vmm->facts.paced_until = now + number_of(vmstate_board_character(&vmm->board));
    }
}

/* Gives the processor the board's interrupt, if it takes one now. Else KVM_RUN returns when it does: an acknowledge is for good. */
static void interrupt(struct vmm *vmm)
{
    struct kvm_run *run = vmm->run;
    vmm->was_given = vmm->is_interrupting && run->ready_for_interrupt_injection && run->if_flag;
    if (vmm->was_given) {
        struct kvm_interrupt vector = {take(vmm, vmstate_board_ack(&vmm->board))};
        checked(ioctl(vmm->cpu, KVM_INTERRUPT, &vector), "KVM_INTERRUPT");
    }
    run->request_interrupt_window = vmm->is_interrupting;
}

/* Reads a port. Of port 61, bits 0 to 3 are as written, bit 4 turns at each read, and bit 5 is OUT of the timer's counter 2. */
static uint8_t read_port(struct vmm *vmm, uint64_t now, uint16_t port)
{
    if (port != PORT_61)
        return take(vmm, vmstate_board_in(&vmm->board, now, port));
    take(vmm, vmstate_board_advance(&vmm->board, now));
    vmm->facts.port61 ^= 0x10;
    return vmm->facts.port61 | number_of(vmstate_board_output(&vmm->board, 2)) << 5;
}

/* An access of 1, 2 or 4 bytes, or of a string of them: byte by byte, to ports that follow each other. */
static void access_ports(struct vmm *vmm, uint64_t now)
{
    struct kvm_run *run = vmm->run;
    uint8_t *bytes = (uint8_t *)run + run->io.data_offset;
    for (uint32_t i = 0; i < run->io.count * run->io.size; i++) {
        uint16_t port = run->io.port + i % run->io.size;
        if (run->io.direction == KVM_EXIT_IO_IN)
            bytes[i] = read_port(vmm, now, port);
        else if (port == PORT_61)
            vmm->facts.port61 = (vmm->facts.port61 & 0x10) | (bytes[i] & 0x0f);
        else
            take(vmm, vmstate_board_out(&vmm->board, now, port, bytes[i]));
    }
}

/* Runs the guest until it stops, and does what it stopped for. Returns false if a signal stopped it. */
static bool enter(struct vmm *vmm)
{
    struct kvm_run *run = vmm->run;
    bool is_stopped = ioctl(vmm->cpu, KVM_RUN, 0) == 0;
    run->immediate_exit = 0;
    checked(is_stopped || errno == EINTR ? 0 : -1, "KVM_RUN");
    if (!is_stopped)
        return false;
    vmm->facts.exits++;
    uint64_t now = moment(vmm) + (vmm->facts.is_real ? 0 : ACCESS_TIME);
    switch (run->exit_reason) {
    case KVM_EXIT_IO: access_ports(vmm, now); break;
    case KVM_EXIT_IRQ_WINDOW_OPEN: break;
    case KVM_EXIT_SHUTDOWN: vmm->is_over = true; break; /* a triple fault, by which Linux can reset a PC */
    case KVM_EXIT_MMIO: /* nothing is there */
        take(vmm, vmstate_board_advance(&vmm->board, now));
        memset(run->mmio.data, 0xff, sizeof run->mmio.data);
        break;
    case KVM_EXIT_HLT: /* with interrupts off it is for good */
        vmm->is_over = !run->if_flag;
        while (!vmm->is_over && !vmm->is_interrupting) {
            receive(vmm, vmm->facts.is_real);
            if (!vmm->is_interrupting)
                pass_time(vmm);
        }
        break;
    default: errx(1, "KVM stops the guest for reason %u (%u)", run->exit_reason, run->internal.suberror);
    }
    return true;
}

/* Finishes the guest's last access, whose answer the processor may not have yet: KVM hands it over when the guest is entered again.
 * With immediate_exit nothing else happens then, but a string of accesses can stop the guest once more. */
void finish_access(struct vmm *vmm)
{
    do
        vmm->run->immediate_exit = 1;
    while (enter(vmm));
}

/* Runs the guest to its end. The clock begins at the board's moment: time stands still for a guest while it is passed on. */
void run_guest(struct vmm *vmm)
{
    struct sigaction action = {.sa_handler = stop_guest, .sa_flags = SA_RESTART};
    running = vmm->run;
    checked(sigaction(SIGALRM, &action, NULL), "SIGALRM");
    checked(sigaction(SIGPROF, &action, NULL), "SIGPROF");
    vmm->zero = host_time() - number_of(vmstate_board_now(&vmm->board));
    vmm->is_interrupting = number_of(vmstate_board_int(&vmm->board));
    while (!vmm->is_over) {
        receive(vmm, false);
        interrupt(vmm);
        set_timer(vmm);
        if (vmm->every && vmm->facts.exits - vmm->facts.offered_at >= vmm->every)
            pass_on(vmm);
        else if (!enter(vmm))
            pass_time(vmm);
    }
}
