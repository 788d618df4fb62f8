"""The tests of `vmstate-qemu`. `python3 -m unittest` in the folder `qemu` runs them."""
import os
import sys

HERE = os.path.dirname(os.path.abspath(__file__))
TOP = os.path.dirname(HERE)
BUILT = os.path.join(os.path.dirname(TOP), "crates", "vmstate", "out", "vmstate")

sys.dont_write_bytecode = True
sys.path.insert(0, TOP)
if "VMSTATE" not in os.environ and os.path.exists(BUILT):
    os.environ["VMSTATE"] = BUILT
