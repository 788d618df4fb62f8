// The processor's side: what Bochs calls in place of its own ports and interrupt controller, and the kernel in its memory.
//
// change.py includes this file in Bochs's iodev/devices.cc.
#include "cpu/cpu.h"
#include "machine.h"

#include <string>
#include <vector>

// A tick of Bochs is an instruction: 100 million a second. The board's time passes at least each 5,000 ticks.
static const Bit64u TICK_NS = 10, PASS_TICKS = 5000;

// The ROM reads four bytes here: the kernel is loaded, and its entry is the answer.
static const Bit16u LOAD_PORT = 0xe0;

static const bx_phy_address ZERO_PAGE = 0x10000, COMMAND_LINE = 0x20000, KERNEL = 0x100000, INITRD = 0x8000000;

static std::string path_of(const char *name)
{
  return std::string(getenv("GUEST")) + "/" + name;
}

static std::vector<Bit8u> file_of(const char *name)
{
  std::vector<Bit8u> bytes;
  FILE *file = fopen(path_of(name).c_str(), "rb");
  if (!file) {
    fprintf(stderr, "guest: %s can't be read\n", path_of(name).c_str());
    _exit(4);
  }
  Bit8u part[65536];
  for (size_t count; (count = fread(part, 1, sizeof part, file)) > 0;)
    bytes.insert(bytes.end(), part, part + count);
  fclose(file);
  return bytes;
}

static void put(bx_phy_address address, const Bit8u *bytes, size_t length)
{
  while (length) {
    size_t part = 4096 - (address & 4095);
    if (part > length)
      part = length;
    BX_MEM(0)->dmaWritePhysicalPage(address, (unsigned)part, (Bit8u *)bytes);
    address += part;
    bytes += part;
    length -= part;
  }
}

static void set(std::vector<Bit8u> &bytes, size_t at, Bit64u number, size_t length)
{
  for (size_t i = 0; i < length; i++)
    bytes[at + i] = (Bit8u)(number >> 8 * i);
}

// The page of Linux's boot protocol: the kernel's own header, where the rest lies, and which memory there is.
static std::vector<Bit8u> zero_page(const std::vector<Bit8u> &kernel, size_t initrd_length)
{
  static const Bit64u ranges[2][2] = {{0, 0x9fc00}, {0x100000, 0xff00000}};
  std::vector<Bit8u> page(4096);
  std::copy(kernel.begin() + 0x1f1, kernel.begin() + 0x202 + kernel[0x201], page.begin() + 0x1f1);
  page[0x210] = 0xff;                   // type_of_loader: none of those with a number
  page[0x211] |= 1;                     // loadflags: the kernel lies at 0x100000
  set(page, 0x218, INITRD, 4);          // ramdisk_image
  set(page, 0x21c, initrd_length, 4);   // ramdisk_size
  set(page, 0x228, COMMAND_LINE, 4);    // cmd_line_ptr
  page[0x1e8] = 2;                      // e820_entries
  for (int i = 0; i < 2; i++) {
    set(page, 0x2d0 + 20 * i, ranges[i][0], 8);
    set(page, 0x2d8 + 20 * i, ranges[i][1], 8);
    page[0x2e0 + 20 * i] = 1;           // usable
  }
  return page;
}

static Bit32u load_kernel(void)
{
  std::vector<Bit8u> kernel = file_of("kernel"), initrd = file_of("initrd"), line = file_of("cmdline");
  size_t setup = 512 * ((kernel[0x1f1] ? kernel[0x1f1] : 4) + 1);
  std::vector<Bit8u> page = zero_page(kernel, initrd.size());
  line.push_back(0);
  put(ZERO_PAGE, page.data(), page.size());
  put(COMMAND_LINE, line.data(), line.size());
  put(KERNEL, kernel.data() + setup, kernel.size() - setup);
  put(INITRD, initrd.data(), initrd.size());
  return KERNEL;
}

static Bit64u now(void)
{
  return bx_pc_system.time_ticks() * TICK_NS;
}

// Bochs counts ticks a few instructions late: the moment of an instruction is had by bringing its clock up to date.
static Bit64u moment(void)
{
  BX_CPU_C *cpu = BX_CPU(0);
  Bit32u late = (Bit32u)(cpu->get_icount() - cpu->get_icount_last_sync());
  if (late > 0) {
    cpu->sync_icount();
    BX_TICKN(late);
  }
  return now();
}

static void set_interrupt(void)
{
  if (machine_interrupts())
    BX_RAISE_INTR();
  else
    BX_CLEAR_INTR();
}

static void pass(void *)
{
  machine_pass(now());
  set_interrupt();
}

static void start(void)
{
  static std::string folder = path_of("");
  struct machine_files files = {folder.c_str(), getenv("KEEPER"), getenv("SHOW") != NULL};
  machine_start(&files);
  bx_pc_system.register_timer_ticks(NULL, pass, PASS_TICKS, 1, 1, "board");
}

static Bit32u guest_in(Bit16u port, unsigned length)
{
  if (port == LOAD_PORT && length == 4) {
    start();
    return load_kernel();
  }
  Bit32u value = 0;
  for (unsigned i = 0; i < length; i++)
    value |= (Bit32u)machine_in(moment(), (Bit16u)(port + i)) << 8 * i;
  set_interrupt();
  return value;
}

static void guest_out(Bit16u port, Bit32u value, unsigned length)
{
  for (unsigned i = 0; i < length; i++)
    machine_out(moment(), (Bit16u)(port + i), (Bit8u)(value >> 8 * i));
  set_interrupt();
}

Bit8u guest_acknowledge(void)
{
  Bit8u vector = machine_acknowledge(moment());
  set_interrupt();
  return vector;
}

// The guest halts with interrupts off: nothing will wake it.
void guest_halted(void)
{
  machine_end(moment());
  fflush(NULL);
  _exit(0);
}
