/* The machine: RAM and processor by KVM, as firmware and a boot loader would have left them, and the processor's state as bytes. */
#include "vmm.h"

#include <asm/bootparam.h>
#include <fcntl.h>
#include <string.h>
#include <sys/ioctl.h>
#include <sys/mman.h>
#include <time.h>
#include <unistd.h>

enum { API = 12, KVM_PAGES = 0xfffbd000, MOST_CPUID = 256, MOST_MSRS = 512 };

/* Makes the processor the one that KVM offers, but without APIC, and with the clock of steps without time stamps. */
static void set_cpuid(const struct vmm *vmm)
{
    static union {
        struct kvm_cpuid2 list;
        uint8_t room[sizeof(struct kvm_cpuid2) + MOST_CPUID * sizeof(struct kvm_cpuid_entry2)];
    } cpuid = {.list.nent = MOST_CPUID};
    checked(ioctl(vmm->kvm, KVM_GET_SUPPORTED_CPUID, &cpuid), "KVM_GET_SUPPORTED_CPUID");
    for (struct kvm_cpuid_entry2 *entry = cpuid.list.entries; entry < cpuid.list.entries + cpuid.list.nent; entry++) {
        bool tells_tsc = entry->function == 0x15 || entry->function == 0x16 || entry->function == 0x80000007;
        if (entry->function == 1) {
            entry->ebx = (entry->ebx & 0xffff) | 1 << 16;                  /* one processor, number 0 */
            entry->ecx &= ~(1u << 3 | 1u << 21 | 1u << 24 | 1u << 31);     /* MONITOR, x2APIC, TSC deadline, hypervisor */
            entry->edx &= ~(1u << 9 | 1u << 28 | (vmm->facts.is_real ? 0 : 1u << 4)); /* APIC, threads, TSC */
        } else if (entry->function == 0xb || entry->function == 0x1f || (tells_tsc && !vmm->facts.is_real)) {
            entry->eax = entry->ebx = entry->ecx = entry->edx = 0; /* 0xb and 0x1f: how processors are arranged */
        }
    }
    checked(ioctl(vmm->cpu, KVM_SET_CPUID2, &cpuid), "KVM_SET_CPUID2");
}

/* Makes the guest's machine over the RAM in `ram_file`, with its processor as a reset leaves it. */
void make_machine(struct vmm *vmm, int ram_file)
{
    vmm->kvm = checked(open("/dev/kvm", O_RDWR | O_CLOEXEC), "/dev/kvm");
    if (ioctl(vmm->kvm, KVM_GET_API_VERSION, 0) != API || ioctl(vmm->kvm, KVM_CHECK_EXTENSION, KVM_CAP_IMMEDIATE_EXIT) <= 0)
        errx(1, "this KVM is too old");
    vmm->vm = checked(ioctl(vmm->kvm, KVM_CREATE_VM, 0), "KVM_CREATE_VM");
    checked(ioctl(vmm->vm, KVM_SET_TSS_ADDR, KVM_PAGES), "KVM_SET_TSS_ADDR"); /* three pages for KVM where no RAM is */
    vmm->ram_file = ram_file;
    checked(ftruncate(ram_file, vmm->facts.ram_size), "RAM");
    vmm->ram = mmap(NULL, vmm->facts.ram_size, PROT_READ | PROT_WRITE, MAP_SHARED, ram_file, 0);
    checked(vmm->ram == MAP_FAILED ? -1 : 0, "RAM");
    struct kvm_userspace_memory_region ram = {.memory_size = vmm->facts.ram_size, .userspace_addr = (uintptr_t)vmm->ram};
    checked(ioctl(vmm->vm, KVM_SET_USER_MEMORY_REGION, &ram), "KVM_SET_USER_MEMORY_REGION");
    vmm->cpu = checked(ioctl(vmm->vm, KVM_CREATE_VCPU, 0), "KVM_CREATE_VCPU");
    int size = checked(ioctl(vmm->kvm, KVM_GET_VCPU_MMAP_SIZE, 0), "KVM_GET_VCPU_MMAP_SIZE");
    vmm->run = mmap(NULL, size, PROT_READ | PROT_WRITE, MAP_SHARED, vmm->cpu, 0);
    checked(vmm->run == MAP_FAILED ? -1 : 0, "the processor's page");
    set_cpuid(vmm);
}

/* Where things are in the RAM. */
enum {
    FLAT = 0x7c00,          /* a flat guest, where a PC has its boot sector; its stack is below */
    SEGMENTS = 0x9000,      /* Linux: the table of segments; the stack is below */
    PARAMETERS = 0x10000,   /* Linux: struct boot_params */
    COMMAND_LINE = 0x20000, /* Linux */
    LOW_END = 0x9fc00,      /* the end of the RAM below a PC's hole */
    HIGH = 0x100000,        /* the RAM above the hole */
    IS_RAM = 1              /* the type of a range in struct boot_params */
};

/* Reads a file, from an offset in it on, to an address in the RAM. Returns the address of its end. */
static size_t read_file(const struct vmm *vmm, const char *path, off_t offset, size_t address, size_t end)
{
    int file = checked(open(path, O_RDONLY | O_CLOEXEC), path);
    ssize_t count = 1;
    for (; count > 0 && address < end; address += count, offset += count)
        count = checked(pread(file, vmm->ram + address, end - address, offset), path);
    if (count > 0)
        errx(1, "%s: too large for the RAM", path);
    close(file);
    return address;
}

/* Sets the processor's registers, and makes its segments flat: real mode from address 0, or protected mode of 32 bits. */
static void set_registers(const struct vmm *vmm, struct kvm_regs registers, bool is_protected)
{
    struct kvm_segment code = {.limit = 0xffffffff, .selector = 0x10, .type = 11, .present = 1, .db = 1, .s = 1, .g = 1};
    struct kvm_segment data = {.limit = 0xffffffff, .selector = 0x18, .type = 3, .present = 1, .db = 1, .s = 1, .g = 1};
    const uint64_t table[] = {0, 0, 0x00cf9b000000ffff, 0x00cf93000000ffff}; /* code and data as above */
    struct kvm_sregs all;
    checked(ioctl(vmm->cpu, KVM_GET_SREGS, &all), "KVM_GET_SREGS");
    if (is_protected) {
        memcpy(vmm->ram + SEGMENTS, table, sizeof table);
        all.gdt.base = SEGMENTS;
        all.gdt.limit = sizeof table - 1;
        all.cs = code;
        all.ds = all.es = all.fs = all.gs = all.ss = data;
        all.cr0 |= 1;
    } else {
        all.cs.base = all.cs.selector = 0;
    }
    checked(ioctl(vmm->cpu, KVM_SET_SREGS, &all), "KVM_SET_SREGS");
    checked(ioctl(vmm->cpu, KVM_SET_REGS, &registers), "KVM_SET_REGS");
}

/* Loads a Linux kernel by the 32-bit boot protocol (Documentation/arch/x86/boot.rst). `header` is as it is in the file. */
static void load_linux(const struct vmm *vmm, struct setup_header header)
{
    struct boot_params parameters = {
        .e820_entries = 2,
        .e820_table = {{0, LOW_END, IS_RAM}, {HIGH, vmm->facts.ram_size - HIGH, IS_RAM}},
    };
    size_t length = (header.jump >> 8) + 0x202 - offsetof(struct boot_params, hdr); /* older kernels have a shorter header */
    size_t entry = header.version >= 0x20a ? header.pref_address : HIGH;
    size_t unpacked = header.version >= 0x20a ? entry + header.init_size : 0;
    if (entry < HIGH || entry >= vmm->facts.ram_size || strlen(vmm->append) >= LOW_END - COMMAND_LINE)
        errx(1, "%s: the RAM is too small", vmm->guest);
    size_t end = read_file(vmm, vmm->guest, ((header.setup_sects ? header.setup_sects : 4) + 1) * 512, entry, vmm->facts.ram_size);
    strcpy((char *)vmm->ram + COMMAND_LINE, vmm->append);
    header.cmd_line_ptr = COMMAND_LINE;
    header.type_of_loader = 0xff; /* one without a number */
    header.loadflags |= LOADED_HIGH;
    if (vmm->initrd) {
        header.ramdisk_image = ((end > unpacked ? end : unpacked) + 0xfff) & ~0xfff;
        header.ramdisk_size = read_file(vmm, vmm->initrd, 0, header.ramdisk_image, vmm->facts.ram_size) - header.ramdisk_image;
    }
    memcpy(&parameters.hdr, &header, length < sizeof header ? length : sizeof header);
    memcpy(vmm->ram + PARAMETERS, &parameters, sizeof parameters);
    set_registers(vmm, (struct kvm_regs){.rip = entry, .rsi = PARAMETERS, .rsp = SEGMENTS, .rflags = 2}, true);
}

static uint8_t decimal(int number)
{
    return number / 10 % 10 << 4 | number % 10;
}

/* Writes the registers of a clock chip, all 0 at power on, that firmware would have set: divider, 24 hours, and date, for good. */
static void write_clock_chip(struct vmm *vmm)
{
    time_t now = vmm->facts.is_real ? time(NULL) : 1767225600; /* the clock of steps: 2026-01-01 in each run */
    const struct tm *date = gmtime(&now);
    const uint8_t registers[][2] = {
        {0x0a, 0x26}, {0x0b, 0x02}, {0x00, decimal(date->tm_sec)}, {0x02, decimal(date->tm_min)}, {0x04, decimal(date->tm_hour)},
        {0x06, date->tm_wday + 1}, {0x07, decimal(date->tm_mday)}, {0x08, decimal(date->tm_mon + 1)},
        {0x09, decimal(date->tm_year % 100)}, {0x32, decimal(19 + date->tm_year / 100)},
    };
    for (size_t i = 0; i < sizeof registers / sizeof *registers; i++) {
        take(vmm, vmstate_board_out(&vmm->board, 0, 0x70, registers[i][0]));
        take(vmm, vmstate_board_out(&vmm->board, 0, 0x71, registers[i][1]));
    }
}

/* Makes the guest at power on: a Linux kernel if it has the header of one, else a flat guest, which begins in real mode. */
void begin(struct vmm *vmm)
{
    struct setup_header header = {0};
    int file = checked(open(vmm->guest, O_RDONLY | O_CLOEXEC), vmm->guest);
    make_machine(vmm, checked(memfd_create("guest", MFD_CLOEXEC), "memfd_create"));
    expect_done(vmstate_board_new(&vmm->board, vmm->facts.kind, vmm->facts.level), "new");
    if (vmm->facts.kind == VMSTATE_BOARD_CLK)
        write_clock_chip(vmm);
    checked(pread(file, &header, sizeof header, offsetof(struct boot_params, hdr)), vmm->guest);
    close(file);
    if (memcmp(&header.header, "HdrS", 4) == 0) {
        load_linux(vmm, header);
    } else {
        read_file(vmm, vmm->guest, 0, FLAT, LOW_END);
        set_registers(vmm, (struct kvm_regs){.rip = FLAT, .rsp = FLAT, .rflags = 2}, false);
    }
}

/* The processor's state but for its model specific registers (MSRs), in the order in which it is restored. */
static const struct part {
    const char *name;
    unsigned long get, set;
    uint32_t size;
} PARTS[] = {
    {"segments and control registers", KVM_GET_SREGS, KVM_SET_SREGS, sizeof(struct kvm_sregs)},
    {"registers", KVM_GET_REGS, KVM_SET_REGS, sizeof(struct kvm_regs)},
    {"extended control registers", KVM_GET_XCRS, KVM_SET_XCRS, sizeof(struct kvm_xcrs)},
    {"floating point", KVM_GET_XSAVE, KVM_SET_XSAVE, sizeof(struct kvm_xsave)},
    {"debug registers", KVM_GET_DEBUGREGS, KVM_SET_DEBUGREGS, sizeof(struct kvm_debugregs)},
    {"events on their way", KVM_GET_VCPU_EVENTS, KVM_SET_VCPU_EVENTS, sizeof(struct kvm_vcpu_events)},
};
static const struct part *const END = PARTS + sizeof PARTS / sizeof *PARTS;
static uint8_t bytes[sizeof(struct kvm_xsave)]; /* of a part: that of floating point is the largest */
static struct kvm_msr_entry msrs[MOST_MSRS];

/* Moves one MSR to or from the processor. Returns false if the processor doesn't have it, or can't have the value. */
static bool move_msr(const struct vmm *vmm, unsigned long request, struct kvm_msr_entry *entry)
{
    struct {
        struct kvm_msrs head;
        struct kvm_msr_entry entry;
    } one = {{.nmsrs = 1}, *entry};
    bool is_moved = ioctl(vmm->cpu, request, &one) == 1;
    *entry = one.entry;
    return is_moved;
}

/* Writes the processor's state, of KVM's list of MSRs those that it has. Returns false if the other process is gone. */
bool save_processor(const struct vmm *vmm, int to)
{
    uint32_t list[1 + MOST_MSRS] = {MOST_MSRS}, count = 0; /* a struct kvm_msr_list */
    checked(ioctl(vmm->kvm, KVM_GET_MSR_INDEX_LIST, list), "KVM_GET_MSR_INDEX_LIST");
    for (uint32_t i = 1; i <= list[0]; i++) {
        msrs[count] = (struct kvm_msr_entry){.index = list[i]};
        count += move_msr(vmm, KVM_GET_MSRS, &msrs[count]);
    }
    bool is_written = put(to, msrs, count * sizeof *msrs);
    for (const struct part *part = PARTS; part < END; part++) {
        checked(ioctl(vmm->cpu, part->get, bytes), part->name);
        is_written = is_written && put(to, bytes, part->size);
    }
    return is_written;
}

/* Reads the processor's state. What can't be set ends the process, but for MSRs that have the value already. */
void restore_processor(const struct vmm *vmm, int from)
{
    uint32_t count = get(from, msrs, sizeof msrs) / sizeof *msrs;
    for (struct kvm_msr_entry *msr = msrs; msr < msrs + count; msr++) {
        struct kvm_msr_entry own = *msr;
        if (!move_msr(vmm, KVM_SET_MSRS, msr) && !(move_msr(vmm, KVM_GET_MSRS, &own) && own.data == msr->data))
            errx(1, "this processor can't have %llx in its MSR %x", msr->data, msr->index);
    }
    for (const struct part *part = PARTS; part < END; part++) {
        if (get(from, bytes, sizeof bytes) != part->size)
            errx(1, "%s: another length", part->name);
        checked(ioctl(vmm->cpu, part->set, bytes), part->name);
    }
}
