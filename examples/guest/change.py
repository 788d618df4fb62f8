#!/usr/bin/env python3
"""change.py BOCHS: changes the sources of Bochs 3.0 in the folder BOCHS, so that its ports, its acknowledge and its halt are
those of processor.cc. Each edit has a pattern and how often it must be found. If one isn't, nothing is changed."""
import os
import re
import sys

EDITS = [
    # what processor.cc has is a part of this file
    ("iodev/devices.cc", r'^#define LOG_THIS bx_devices\.$', r'#include "processor.cc"\n\n\g<0>', 1),
    # each access of a port
    ("iodev/devices.cc", r'^  BX_INSTR_INP\(addr, io_len\);$', r'\g<0>\n  return guest_in(addr, io_len);', 1),
    ("iodev/devices.cc", r'^  BX_INSTR_OUTP\(addr, io_len, value\);$', r'\g<0>\n  guest_out(addr, value, io_len);\n  return;', 1),
    # the acknowledge of an interrupt
    ("cpu/event.cc", r'vector = DEV_pic_iac\(\);', r'{ extern Bit8u guest_acknowledge(void); vector = guest_acknowledge(); }', 1),
    # HLT while interrupts are off
    ("cpu/proc_ctrl.cc", r'BX_INFO\(\("WARNING: HLT instruction with IF=0!"\)\);',
     r'{ extern void guest_halted(void); guest_halted(); }', 1),
    # Bochs's own interrupt controller interrupts nobody
    ("iodev/pic.cc", r'BX_(RAISE|CLEAR)_INTR\(\);', r'((void)0);', 4),
]


def changed(folder):
    """The changed texts by name, or a message to standard error and the end."""
    texts = {}
    for name, pattern, replacement, wanted in EDITS:
        path = os.path.join(folder, name)
        if name not in texts:
            try:
                with open(path, encoding="latin-1") as file:
                    texts[name] = file.read()
            except FileNotFoundError:
                sys.exit(f"change.py: there is no {path}: {folder} isn't the source of Bochs")
            if "processor.cc" in texts[name] or "guest_" in texts[name]:
                sys.exit(f"change.py: {path} is changed already")
        texts[name], count = re.subn(pattern, replacement, texts[name], flags=re.M)
        if count != wanted:
            sys.exit(f"change.py: {path} has {count} times what must be there {wanted} times: {pattern}\n"
                     "change.py: this is another version of Bochs; nothing was changed")
    return texts


def main():
    if len(sys.argv) != 2:
        sys.exit("change.py BOCHS")
    for name, text in changed(sys.argv[1]).items():
        with open(os.path.join(sys.argv[1], name), "w", encoding="latin-1") as file:
            file.write(text)


main()
