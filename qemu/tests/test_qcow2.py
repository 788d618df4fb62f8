"""Streams that `savevm` keeps in an image, of which the tables are made here."""
import struct

from tests.kit import DEVICES, ISAPC, Case, called, read

CLUSTER = 512
TABLE = CLUSTER // 8


def image(stream: bytes, names: tuple = ("here",), state: int = None, bits: int = 9, crypt: int = 0) -> bytes:
    """Returns a qcow2 image of an empty disk with `stream` as the state of each snapshot.

    Its parts are the header, the table of snapshots, a first table, the second tables, and the clusters of the state, of
    which those of zeros alone are left out.
    """
    clusters = [stream[at:at + CLUSTER].ljust(CLUSTER, b"\0") for at in range(0, len(stream), CLUSTER)]
    seconds = -(-len(clusters) // TABLE)
    first, second = 4 * CLUSTER, (4 + -(-seconds // TABLE)) * CLUSTER
    data = second + seconds * CLUSTER
    entries, kept = [], []
    for cluster in clusters:
        entries.append(data + len(kept) * CLUSTER if any(cluster) else 0)
        kept += [cluster] if any(cluster) else []
    header = b"QFI\xfb" + struct.pack(">IQIIQIIQQIIQ", 2, 0, 0, bits, 0, crypt, 0, 0, 0, 0, len(names), CLUSTER)
    length = len(stream) if state is None else state
    table = b""
    for number, name in enumerate(names):
        entry = struct.pack(">QIHHIIQII", first, seconds, 1, len(name), 0, 0, 0, 0, 16) + struct.pack(">QQ", length, 0)
        entry += str(number).encode() + name.encode()
        table += entry.ljust(-(-len(entry) // 8) * 8, b"\0")
    tables = struct.pack(f">{seconds}Q", *(second + index * CLUSTER for index in range(seconds)))
    return (header.ljust(CLUSTER, b"\0") + table.ljust(3 * CLUSTER, b"\0") + tables.ljust(second - first, b"\0")
            + struct.pack(f">{len(entries)}Q", *entries).ljust(seconds * CLUSTER, b"\0") + b"".join(kept))


class Image(Case):
    """A stream in an image is read like one in a file."""

    def test_a_snapshot_is_a_stream(self):
        path = self.put("disk", image(read(ISAPC)))
        self.assertEqual(self.gives(["show", path]), self.gives(["show", ISAPC]))
        self.assertEqual(self.gives(["diff", path, ISAPC]), "")
        new = self.path("new")
        self.gives(["edit", path, "serial", "state.scr=3", "-o", new])
        self.assertEqual(self.gives(["diff", ISAPC, new], 4), "serial state.scr: 0 -> 3\n")
        self.says(["edit", "--in-place", path, "serial", "state.scr=3"], 2, "only a file that is a stream")

    def test_one_of_several_is_named(self):
        path = self.put("disk", image(read(ISAPC), ("one", "two $(x)")))
        self.says(["list", path], 5, "those with a VM's state: one, two $(x)")
        for word in ("two $(x)", "1"):
            self.assertEqual(called("list", "--snapshot", word, path)[0], 0)
        self.says(["list", "--snapshot", "three", path], 5, "say which snapshot")
        self.says(["list", "--snapshot", "one", ISAPC], 5, "is no qcow2 image")

    def test_images_that_lie(self):
        good = image(read(DEVICES))
        for bad in (good[:60], good[:700], image(read(DEVICES), state=1 << 60), image(read(DEVICES), state=1 << 30),
                    image(read(DEVICES), bits=3), image(read(DEVICES), crypt=1),
                    good[:64] + b"\xff" * 8 + good[72:], good[:60] + b"\xff" * 4 + good[64:]):
            self.says(["list", self.put("bad", bad)], 5, "bad: ")
