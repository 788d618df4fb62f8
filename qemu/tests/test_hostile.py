"""Streams that are cut, damaged or made to deceive: one line and a status, and never a traceback."""
import json
import os
import struct
from unittest import mock

from tests.kit import DEVICES, ISAPC, PC, Case, called, read
from vmstate_qemu.description import find
from vmstate_qemu.errors import Trouble
from vmstate_qemu.source import Source
from vmstate_qemu.stream import donor_devices, front_units, open_stream, read_stream

HEAD = b"QEVM\0\0\0\3"


def section(name: bytes, body: bytes, identity: bytes = b"\0\0\0\1", instance: int = 0) -> bytes:
    """Returns a full section with a footer."""
    return (b"\4" + identity + bytes([len(name)]) + name + struct.pack(">II", instance, 1) + body + b"\x7e" + identity)


def described(*devices: object) -> bytes:
    """Returns a description section of these devices."""
    text = json.dumps({"page_size": 4096, "devices": devices}).encode()
    return b"\6" + struct.pack(">I", len(text)) + text


def device(name: str, size: int, instance: int = 0, **more: object) -> dict:
    """Returns what QEMU says of a device with one field of `size` bytes."""
    return {"name": name, "instance_id": instance, "vmsd_name": name, "version": 1,
            "fields": [{"name": "data", "type": "buffer", "size": size, **more}]}


class Cut(Case):
    """Streams that end too early."""

    def outcome(self, path: str, like: tuple = None) -> str:
        """Returns what is said of a stream: nothing if it is read. Anything else than a `Trouble` fails the test."""
        try:
            stream = read_stream(Source(path), like)
            at = stream.sections[0].at if stream.sections else stream.end
            list(stream.front or front_units(stream, at))
            for each in stream.sections:
                each.leaves()
                stream.body(each)
        except Trouble as error:
            return str(error)
        return ""

    def test_devices_alone_at_every_length(self):
        few, whole = self.path("few"), read(ISAPC)
        self.gives(["cut", ISAPC, "timer", "serial", "pcspk", "-o", few])
        some, mark = read(few), open_stream(ISAPC).end
        like = donor_devices(ISAPC)
        for length in range(len(some)):
            self.assertNotEqual(self.outcome(self.put("cut", some[:length]), like), "", length)
        self.assertEqual(self.outcome(few, like), "")
        for length in range(0, os.path.getsize(DEVICES), 311):
            self.assertNotEqual(self.outcome(self.put("cut", read(DEVICES)[:length]), like), "", length)
        self.assertEqual(whole[mark:mark + 2], b"\0\6")

    def test_a_whole_stream_at_many_lengths(self):
        whole = read(ISAPC)
        for length in [*range(0, len(whole), 499), *range(len(whole) - 40, len(whole))]:
            self.assertNotEqual(self.outcome(self.put("cut", whole[:length])), "", length)
        self.assertEqual(self.outcome(self.put("cut", whole + bytes(5000))), "", "zeros behind are passed over")

    def test_each_part_of_the_description_damaged(self):
        whole = read(ISAPC)
        start = find(Source(ISAPC)).at
        for at in range(start, len(whole), 607):
            for byte in (b"0", b"}", b"\xff"):
                self.outcome(self.put("bad", whole[:at] + byte + whole[at + 1:]))

    def test_each_byte_before_the_devices_damaged(self):
        whole = read(ISAPC)
        for at in range(0, 400, 3):
            self.outcome(self.put("bad", whole[:at] + bytes([whole[at] ^ 0xff]) + whole[at + 1:]))

    def test_a_head_that_is_another(self):
        self.says(["list", self.put("empty", b"")], 1, "refused at 0 in -: this is no migration stream")
        self.says(["list", self.put("old", b"QEVM\0\0\0\2")], 1, "refused at 4 in -: the stream has version 2, not 3")
        self.says(["list", self.folder], 5, "is a folder")
        self.says(["list", self.path("none")], 5, "No such file")


class Deceiving(Case):
    """Streams whose bytes look like something else."""

    def made(self, *parts: bytes) -> str:
        """Returns the path of a stream of these parts."""
        return self.put("made", HEAD + b"".join(parts))

    def test_a_body_that_looks_like_its_footer_and_the_next_section(self):
        inner = b"\x7e\0\0\0\1" + section(b"b", b"xx", b"\0\0\0\2") + b"\0\6\0\0\0\2{}"
        path = self.made(section(b"a", inner), section(b"b", b"yy", b"\0\0\0\2"), b"\0",
                         described(device("a", len(inner)), device("b", 2)))
        rows = json.loads(self.gives(["list", "--json", path]))["sections"]
        self.assertEqual([(row["name"], row["offset"], row["length"]) for row in rows],
                         [("a", 8, 20 + len(inner)), ("b", 28 + len(inner), 22)])
        self.assertEqual(self.gives(["show", path, "b"]), "section b 0 v1\ndata = 0x7979\n")

    def test_names_with_blanks_and_shell_words(self):
        name = "$(touch pwned) `x`\n\x1b[31m"
        path = self.made(section(name.encode(), b"z"), b"\0", described(device(name, 1)))
        out = self.gives(["list", path])
        self.assertIn("$(touch pwned) `x`\\n\\x1b[31m\n", out)
        self.assertIn("data = 0x7a", self.gives(["show", path, name]))
        self.assertNotIn("pwned", os.listdir("."))

    def test_lengths_that_lie(self):
        good = section(b"a", b"1234") + b"\0"
        for lie in (device("a", 3), device("a", 5), device("a", 1 << 60), device("a", 4, 1), device("b", 4),
                    device("a", 1, array_len=1 << 47), device("a", 1, array_len=-1), device("a", -4),
                    device("a", True), {**device("a", 4), "fields": 7}, {**device("a", 4), "fields": [[]]},
                    {**device("a", 4), "instance_id": 1 << 40}, {**device("a", 4), "name": ""}, 7):
            got, _, notes = called("list", self.made(good, described(lie)))
            self.assertEqual((got, notes.count("\n")), (1, 1), notes)
        self.assertEqual(called("list", self.made(good, described(device("a", 4))))[0], 0)

    def test_arrays_of_nothing_and_deep_structures(self):
        part: dict = {"vmsd_name": "s", "version": 1, "fields": []}
        nothing = {"name": "data", "type": "struct", "size": 0, "array_len": 1 << 40, "struct": part}
        path = self.made(section(b"a", b""), b"\0", described({**device("a", 0), "fields": [nothing]}))
        self.assertEqual(self.gives(["show", path]), "section a 0 v1\n")
        deep = b'{"devices":' + b"[" * 100000 + b"]" * 100000 + b"}"
        path = self.made(section(b"a", b""), b"\0\6", struct.pack(">I", len(deep)), deep)
        self.says(["list", path], 1, "isn't as QEMU writes it")
        for _ in range(200):
            part = {"vmsd_name": "s", "version": 1,
                    "fields": [{"name": "x", "type": "struct", "size": 0, "struct": part}]}
        deep_one = {**device("a", 0), "fields": part["fields"]}
        self.says(["list", self.made(section(b"a", b""), b"\0", described(deep_one))], 1, "isn't as QEMU writes it")

    def test_more_than_is_read(self):
        tail = section(b"a", b"1234") + b"\0" + described(device("a", 4))
        path = self.made(tail, bytes(4 << 20))
        self.assertEqual(called("list", path)[0], 0)
        with mock.patch("vmstate_qemu.description.MOST_ZEROS", 1 << 20):
            self.says(["list", path], 1, "more than 1 GiB of zeros")
        with mock.patch("vmstate_qemu.stream.LONGEST_BODY", 3):
            self.assertEqual(called("list", path)[0], 0)
            self.says(["show", path], 1, "refused at 8 in a: it has more than 100,000,000 bytes")
        few = {"name": "x", "type": "struct", "size": 2, "array_len": 50, "struct": {
            "vmsd_name": "s", "version": 1, "fields": [{"name": each, "type": "uint8", "size": 1} for each in "yz"]}}
        path = self.made(section(b"a", bytes(100)), b"\0", described({**device("a", 0), "fields": [few]}))
        with mock.patch("vmstate_qemu.stream.MOST_LEAVES", 100):
            self.assertEqual(called("show", path)[0], 0)
        with mock.patch("vmstate_qemu.stream.MOST_LEAVES", 99):
            self.says(["show", path], 1, "refused at 8 in a: the description has more than a million fields")

    def test_a_section_that_comes_twice_under_a_set(self):
        desc = {"name": "a", "version": 1, "fields": [{"name": "x", "kind": "u8"}]}
        made = {"machines": [], "structs": [], "devices": [{"instance": 0, "desc": desc}]}
        path = self.made(section(b"a", b"1"), section(b"a", b"2"), b"\0")
        got, _, notes = called("list", "--set", self.put("set", json.dumps(made).encode()), path)
        self.assertEqual(got, 1)
        self.assertIn("refused at 29 in a: the section comes twice", notes.splitlines()[0])

    def test_ram_that_lies(self):
        start = b"\1\0\0\0\2\3ram" + struct.pack(">II", 0, 4)
        tail = [section(b"a", b"1"), b"\0", described(device("a", 1))]
        for body in (struct.pack(">Q", 0x7f), struct.pack(">QB4sQ", 0x1004, 4, b"pc.x", 1 << 50),
                     struct.pack(">Q", 0x1008), struct.pack(">Q", 0x40) + b"\1x\1\xff\xff", b""):
            out = self.gives(["list", self.made(start + body, *tail)])
            self.assertIn("not read: ", out)
            self.assertIn("  a\n", out)

    def test_a_description_of_vmstate_is_no_one_of_qemu(self):
        text = b'{"devices":[{"fields":[],"instance_id":0,"name":"a","subsections":[],"version":1}]}'
        path = self.made(section(b"a", b""), b"\0\6", struct.pack(">I", len(text)), text)
        self.says(["list", path], 1, "vmstate analyze")


class Unknown(Case):
    """Subsections that the other stream doesn't have."""

    def test_they_are_bytes_up_to_the_footer(self):
        inner = b"\5\3a/x\0\0\0\1" + b"\x7e\0\0\0\1\4zz"
        like = self.put("like", HEAD + section(b"a", b"12") + section(b"b", b"3", b"\0\0\0\2") + b"\0"
                        + described(device("a", 2), device("b", 1)))
        path = self.put("one", HEAD + section(b"a", b"12" + inner) + section(b"b", b"3", b"\0\0\0\2") + b"\0")
        self.assertEqual(self.gives(["show", path, "--like", like]),
                         "section a 0 v1\ndata = 0x3132\nsub a/x v1\na/x:data = 0x7e00000001047a7a\n"
                         "section b 0 v1\ndata = 0x33\n")
        self.says(["show", path, "--like", like, "c"], 2, "no section is c")
        cut = self.put("cut", HEAD + section(b"a", b"12" + inner))
        self.says(["show", cut, "--like", like], 1, "a subsection a/x, which the other stream doesn't have")


class OfAnyLength(Case):
    """Bytes that a function of QEMU writes, which have another length in the other stream."""

    def test_they_end_at_the_footer(self):
        tail = section(b"b", b"3", b"\0\0\0\2") + b"\0"
        like = self.put("like", HEAD + section(b"a", b"1234") + tail + described(device("a", 4, type="virtio"),
                                                                                device("b", 1)))
        for some in (b"", b"12", b"1234", b"1234\5", b"1234\5\1a/x", b"\x7e\0\0\0\1\4zz", b"123456\x7e\0\0\0\2"):
            path = self.put("one", HEAD + section(b"a", some) + tail)
            shown = self.gives(["show", path, "--like", like])
            self.assertEqual(shown, "section a 0 v1\n" + (f"data = 0x{some.hex()}\n" if some else "")
                             + "section b 0 v1\ndata = 0x33\n")
            self.gives(["edit", path, "--like", like, "b", "data[0]=7", "-o", self.path("new")])
            self.assertEqual(read(self.path("new")), read(path).replace(b"\0\0\0\x013", b"\0\0\0\1\7"))
        cut = self.put("cut", HEAD + section(b"a", b"12"))
        self.says(["show", cut, "--like", like], 1, "zeros follow the end mark")
        self.says(["show", self.put("more", HEAD + section(b"a", b"1234") + tail + b"\0\1"), "--like", like], 1,
                  "refused at 54 in -: more than zeros follow the end mark")
        fixed = self.put("fixed", HEAD + section(b"a", b"1234") + tail + described(device("a", 4), device("b", 1)))
        one = self.put("one", HEAD + section(b"b", b"3") + section(b"a", b"12") + tail)
        self.says(["show", one, "--like", fixed], 1, "the section doesn't fit what is known of it")


class Unfooted(Case):
    """Streams of old machines, without footers."""

    def test_they_are_read(self):
        bare = [b"\4\0\0\0\1\1" + name + struct.pack(">II", 0, 1) + body
                for name, body in ((b"a", b"12"), (b"b", b"3"))]
        path = self.put("bare", HEAD + b"".join(bare) + b"\0" + described(device("a", 2), device("b", 1)))
        self.assertEqual(self.gives(["show", path]), "section a 0 v1\ndata = 0x3132\nsection b 0 v1\ndata = 0x33\n")

    def test_pc_without_its_last_footer_is_refused(self):
        whole, end = read(PC), open_stream(PC).end
        self.says(["list", self.put("bad", whole[:end - 5] + whole[end:])], 1, "the description doesn't fit")
