"""The parts of `vmstate-qemu`, a companion of the program `vmstate` for any QEMU."""
