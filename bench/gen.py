"""The inputs of `bench/run`: the same bytes each time, below a folder, and the cases that use them.

Each case is run at a quarter, at a half and at the whole of its size, if it has sizes.
"""
import collections
import json
import os
import random

HEAD = b"QEVM\0\0\0\3"
PARTS = ((0.25, 4), (0.5, 2), (1, 1))
FILE_LIMIT = 1 << 20
SCRIPT_LIMIT = 4 << 20

# A run: the size, the words, and the file that is standard input, or None.
Run = collections.namedtuple("Run", "size words stdin")
# A row of the table: what it does, its runs, of which the last is the whole, and the status that each must end with.
Case = collections.namedtuple("Case", "work runs status")


def be32(n):
    return n.to_bytes(4, "big")


def u64s(rng, n):
    return [rng.getrandbits(rng.choice((8, 16, 32, 64, 64))) for _ in range(n)]


def body(values):
    return b"".join(x.to_bytes(8, "big") for x in values)


def section_head(i, name, instance=0, version=1):
    return b"\4" + be32(i) + bytes([len(name)]) + name.encode() + be32(instance) + be32(version)


def compact(value):
    return json.dumps(value, separators=(",", ":"), sort_keys=True).encode()


def number(name, kind="u64", **more):
    return dict(more, kind=kind, name=name)


class Set:
    """A set file, a stream of it and its values text, made side by side."""

    def __init__(self):
        self.devices, self.structs, self.stream, self.text = [], [], [HEAD], []

    def device(self, name, fields, instance=0, **more):
        self.devices.append({"instance": instance, "desc": dict(more, name=name, version=1, fields=fields)})
        self.text.append("section %s %d v1\n" % (name, instance))

    def file(self):
        return compact({"devices": self.devices, "machines": ["lab"], "structs": self.structs})

    def streams(self):
        return b"".join(self.stream) + b"\0"

    def values(self):
        return "".join(self.text).encode()


def one_device(n):
    """One device with an array of n numbers."""
    s, v = Set(), u64s(random.Random(1), n)
    s.device("box", [number("c", count=n)])
    s.stream.append(section_head(0, "box") + body(v) + b"\x7e" + be32(0))
    s.text.append("".join("c[%d] = %d\n" % e for e in enumerate(v)))
    return s


def many_devices(n, fields=256):
    """n devices with 256 fields each."""
    s, rng = Set(), random.Random(2)
    names = ["f%d" % k for k in range(fields)]
    for i in range(n):
        v = u64s(rng, fields)
        s.device("dev", [number(k) for k in names], i)
        s.stream.append(section_head(i, "dev", i) + body(v) + b"\x7e" + be32(i))
        s.text.append("".join("%s = %d\n" % e for e in zip(names, v)))
    return s


def nested(n):
    """n elements of a structure that holds structures, four deep, of 1,024 numbers each."""
    s, rng = Set(), random.Random(3)
    s.structs = [{"name": "s0", "version": 1, "fields": [number("x"), number("y")]}]
    for k, name in enumerate("dcb"):
        field = {"name": name, "kind": "struct", "struct": k, "count": 8}
        s.structs.append({"name": "s%d" % (k + 1), "version": 1, "fields": [field]})
    s.device("box", [{"name": "a", "kind": "struct", "struct": 3, "count": n}])
    v = u64s(rng, 1024 * n)
    s.stream.append(section_head(0, "box") + body(v) + b"\x7e" + be32(0))
    it = iter(v)
    for e in range(512 * n):
        path = "a[%d].b[%d].c[%d].d[%d]." % (e // 512, e // 64 % 8, e // 8 % 8, e % 8)
        s.text.append("%sx = %d\n%sy = %d\n" % (path, next(it), path, next(it)))
    return s


def subsections(n):
    """One device with n subsections of 511 numbers, each needed."""
    s, rng = Set(), random.Random(4)
    subs = []
    needed = {"field": "k", "mask": 255, "is": "ne", "value": 0}
    s.device("box", [number("n", "u8")], subsections=subs)
    s.stream.append(section_head(0, "box") + b"\x09")
    s.text.append("n = 9\n")
    for j in range(n):
        name = "box/s%d" % j
        v = u64s(rng, 510)
        subs.append({"name": name, "version": 1, "needed": needed, "fields": [number("k", "u8"), number("v", count=510)]})
        s.stream.append(b"\5" + bytes([len(name)]) + name.encode() + be32(1) + b"\7" + body(v))
        s.text.append("sub %s v1\nk = 7\n" % name + "".join("v[%d] = %d\n" % e for e in enumerate(v)))
    s.stream.append(b"\x7e" + be32(0))
    return s


def validated(n):
    """n structures of eight bytes, each judged by 16 tests of 63 nodes."""
    leaves = iter(range(1 << 30))

    def test(nodes):
        if nodes <= 2:
            return {"field": "n%d" % (next(leaves) % 8), "is": "ge", "mask": 255, "value": 0}
        return {"and": [test((nodes - 1) // 2), test(nodes - 1 - (nodes - 1) // 2)]}

    s = Set()
    fields = [number("n%d" % k, "u8") for k in range(8)]
    s.structs = [{"fields": fields, "name": "s0", "validate": [test(63) for _ in range(16)], "version": 1}]
    s.device("box", [{"count": n, "kind": "struct", "name": "a", "struct": 0}])
    s.stream.append(section_head(0, "box") + b"\1" * (8 * n) + b"\x7e" + be32(0))
    s.text.append("".join("a[%d].n%d = 1\n" % (i, k) for i in range(n) for k in range(8)))
    return s


def pair(n):
    """Two sets of n devices with 256 fields, of which the newer has other names for all."""
    def side(new):
        fields = [number("g%d" % k, former=["f%d" % k]) if new else number("f%d" % k) for k in range(256)]
        desc = {"name": "dev", "version": 2 if new else 1, "minimum": 1, "fields": fields}
        return compact({"machines": ["lab"], "structs": [], "devices": [{"instance": i, "desc": desc} for i in range(n)]})
    return side(False), side(True)


def grown(size, device):
    """A set file of the most devices that fit."""
    def file(n):
        return compact({"machines": ["lab"], "structs": [], "devices": [device(i) for i in range(n)]})
    n = 1
    while len(file(n + 1)) <= size:
        n += 1
    return file(n)


def with_former(size):
    """A set file whose fields have eight former names of 32 bytes, of which many end alike."""
    fields = [number("f%03d" % k, "u8", former=["n%03d%028d" % (k, j) for j in range(8)]) for k in range(256)]
    return grown(size, lambda i: {"instance": i, "desc": {"name": "dev", "version": 1, "fields": fields}})


def with_tests(size):
    """A set file whose fields have tests of about 31 nodes."""
    rng = random.Random(5)

    def test(nodes):
        if nodes <= 2:
            return {"field": "n%d" % rng.randrange(8), "mask": 255, "is": rng.choice(["eq", "ne", "lt", "ge"]),
                    "value": rng.randrange(256)}
        left = (nodes - 1) // 2
        return {rng.choice(["and", "or"]): [test(left), test(nodes - 1 - left)]}

    devices, total = [], 100
    while True:
        fields = [number("n%d" % k, "u8") for k in range(8)]
        devices.append({"instance": len(devices), "desc": {"name": "dev", "version": 1, "fields": fields}})
        total += len(compact(devices[-1])) + 1
        while len(fields) < 256:
            field = number("f%d" % len(fields), "u32", test=test(31))
            total += len(compact(field)) + 1
            if total > size:
                return compact({"devices": devices, "machines": ["lab"], "structs": []})
            fields.append(field)


def empty_objects(size):
    return b'{"devices":[' + b"{}," * (size // 3 - 20) + b'{}],"machines":[],"structs":[]}'


def script(n):
    """n lines for any board."""
    rng = random.Random(6)
    ports = ["%04x" % p for p in list(range(0x3f8, 0x400)) + [0x20, 0x21, 0xa0, 0xa1, 0x40, 0x41, 0x42, 0x43]]
    wires = [1, 3, 5, 6, 7] + list(range(8, 16))
    line = {
        0: lambda: "in %s" % rng.choice(ports),
        1: lambda: "in %s" % rng.choice(ports),
        2: lambda: "out %s %02x" % (rng.choice(ports), rng.randrange(256)),
        3: lambda: "out %s %02x" % (rng.choice(ports), rng.randrange(256)),
        4: lambda: "byte %02x" % rng.randrange(256),
        5: lambda: "wait %d" % (rng.randrange(256) * 100000),
        6: lambda: "ack",
        7: lambda: "wire %d %d" % (rng.choice(wires), rng.randrange(2)),
    }
    return "".join(line[rng.randrange(8)]() + "\n" for _ in range(n)).encode()


# What a driver writes: both interrupt controllers, counter 0 at 100 Hz, the serial port with its FIFOs on and the
# transmitting one full.
SETUP = ("0020=11", "0021=08", "0021=04", "0021=01", "00a0=11", "00a1=70", "00a1=02", "00a1=01", "0043=34", "0040=9c",
         "0040=2e", "03fb=80", "03f8=0c", "03f9=00", "03fb=03", "03fa=01", *["03f8=41"] * 17)

# Calls of the board: the event's first letter for the programs that count it (a capital if time passes before it), its
# line in a script, and whether vm-superio's serial port does the same.
EVENTS = (("a read of LSR", "lsr", "in 03fd", True), ("a write of THR, its FIFO being full", "thr", "out 03f8 41", True),
          ("an acknowledge", "ack", "ack", False), ("a read of counter 0", "counter", "in 0040", False),
          ("a wait of 1 ms", "wait", "wait 1000000", False), ("an end of interrupt", "eoi", "out 0020 20", False),
          ("a read of no device", "none", "in 0080", False), ("a save under `@4`", "save", "save @4 kept", False),
          ("a restore", "restore", "restore kept", False))
CALLS = tuple((work, event, same) for work, event, _, same in EVENTS) + (
    ("a read of LSR, 1 us later", "Lsr", False), ("a read of counter 0, 1 us later", "Counter", False),
    ("an end of interrupt, 1 us later", "Eoi", False))

# How many of an event the two runs have by which it is counted.
FEW_AND_MANY = (100, 1100)


class Inputs:
    """The files below a folder, and the cases over them."""

    def __init__(self, folder, ask, less=1):
        """`ask` runs the proved program in the folder and returns what it prints; sizes are divided by `less`."""
        self.folder, self.ask, self.less = folder, ask, less
        os.makedirs(folder, exist_ok=True)
        self.put("empty", b"")

    def put(self, name, data):
        with open(os.path.join(self.folder, name), "wb") as f:
            f.write(data)
        return name

    def parts(self):
        return [part * self.less for _, part in PARTS]

    def sized(self, work, run, status=0):
        """A case whose run of a size is run(part) of a fourth, a half, a whole: words and standard input."""
        return Case(work, [Run(size, *run(part * self.less)) for size, part in PARTS], status)

    def single(self, work, words, stdin=None):
        return Case(work, [Run(1, words, stdin)], 0)

    def sets(self):
        """`show` and `pack` of one kind of set after the other."""
        kinds = (("16,384 numbers in one array", "one", one_device, 16384),
                 ("64 devices with 256 fields", "dev", many_devices, 64),
                 ("structures four deep", "nest", nested, 16),
                 ("32 subsections with 511 cells", "subs", subsections, 32),
                 ("2,048 structures with 16 validations", "checked", validated, 2048))
        for work, tag, make, full in kinds:
            for part in self.parts():
                s = make(max(1, full // part))
                assert len(s.file()) <= FILE_LIMIT and len(s.values()) <= FILE_LIMIT
                self.put("%s%d.json" % (tag, part), s.file())
                self.put("%s%d.stream" % (tag, part), s.streams())
                self.put("%s%d.values" % (tag, part), s.values())
        for work, tag, *_ in kinds:
            yield self.sized("`show` of " + work, lambda p: (["show", "%s%d.json" % (tag, p)], "%s%d.stream" % (tag, p)))
        for work, tag, *_ in kinds:
            yield self.sized("`pack` of " + work, lambda p: (["pack", "%s%d.json" % (tag, p), "%s%d.values" % (tag, p)], None))

    def files(self):
        """Set files alone, and pairs of them."""
        def no_stream(tag, make):
            return lambda p: (["show", self.put("%s%d.json" % (tag, p), make(FILE_LIMIT // p))], "empty")

        def twice(tag, make):
            def run(p):
                name = self.put("%s%d.json" % (tag, p), make(FILE_LIMIT // p))
                return ["check", name, name], None
            return run

        def two(command, back=False):
            def run(p):
                old, new = pair(64 // p)
                names = [self.put("old%d.json" % p, old), self.put("new%d.json" % p, new)]
                return [command] + (names[::-1] if back else names), None
            return run
        yield self.sized("a set file of 1 MiB with tests, and no stream", no_stream("tests", with_tests), 1)
        yield self.sized("a set file of 1 MiB of `{}`, and no stream", no_stream("empties", empty_objects), 3)
        yield self.sized("`check` of 64 devices with 256 fields", two("check"))
        yield self.sized("`check` of two set files of 1 MiB with tests", twice("tests", with_tests))
        yield self.sized("`check` of two set files of 1 MiB with former names that end alike", twice("former", with_former))
        yield self.sized("`counter` of 64 devices with 256 fields", two("counter"))
        yield self.sized("`counter` of them the other way round", two("counter", True))

    def boards(self):
        """Boards, their streams and their scripts."""
        for p in self.parts():
            self.put("script%d" % p, script(200000 // p))
            self.put("acks%d" % p, b"ack\n" * (SCRIPT_LIMIT // 4 // p))
            self.put("saves%d" % p, b"save @2 kept\nwait 1000000\nrestore kept\n" * (256 // p))
        self.put("line", b"byte 41\n")
        self.put("board", self.ask(["save", "isa-3", "@3", "empty"]))
        self.put("clock", self.ask(["save", "clk-2", "@c2", "empty"]))
        self.put("board.values", self.ask(["show", "@3"], "board"))

        def of(*words, stdin=None):
            return lambda p: ([*words[:-1], "%s%d" % (words[-1], p)], stdin)
        yield self.single("`save` of a script of one line", ["save", "isa-3", "@3", "line"])
        yield self.single("`save` of a clock board", ["save", "clk-2", "@c2", "line"])
        yield self.sized("`save` of a script of 200,000 lines", of("save", "isa-3", "@3", "script"))
        yield self.sized("`load` with a script of 200,000 lines", of("load", "isa-3", "script", stdin="board"))
        yield self.sized("`load` with a script of 1,048,576 lines of `ack`", of("load", "isa-3", "acks", stdin="board"))
        yield self.sized("`load` of a clock board with 200,000 lines", of("load", "clk-2", "script", stdin="clock"))
        yield self.sized("`play` of a script of 1,048,576 lines of `ack`", of("play", "isa-3", "acks"))
        yield self.sized("`play` of 256 saves and restores", of("play", "isa-2", "saves"))
        yield self.sized("`drill` of 1,000,000 events", lambda p: (["drill", "isa-3", "7", str(1000000 // p)], None))
        yield self.single("`show @3` of a board's stream", ["show", "@3"], "board")
        yield self.single("`pack @3` of a board's values", ["pack", "@3", "board.values"])
        yield self.single("`convert @3` of a board's stream", ["convert", "@3"], "board")

    def listings(self):
        """Streams with their descriptions."""
        for p in self.parts():
            self.put("one%d.described" % p, self.ask(["pack", "one%d.json" % p, "one%d.values" % p]))
            self.put("zeros%d" % p, HEAD + bytes(100000000 // p - 8))
        yield self.sized("`analyze` of 16,384 numbers in one array", lambda p: (["analyze"], "one%d.described" % p))
        yield self.sized("`analyze` of 100,000,000 bytes without a description", lambda p: (["analyze"], "zeros%d" % p), 1)

    def starts(self):
        small = HEAD + section_head(0, "timer") + bytes(8) + b"\x7e" + be32(0) + b"\0"
        self.put("small", small)

        def described(p):
            n = (16 << 20) // p
            return ["show", "@0"], self.put("long%d" % p, small + b"\6" + be32(n) + b"x" * n)
        yield self.single("start, and `show @0` of 41 bytes", ["show", "@0"], "small")
        yield self.sized("`show @0` with a description of 16 MiB", described)

    def cases(self):
        for group in (self.starts, self.sets, self.files, self.boards, self.listings):
            yield from group()

    def lines(self):
        """For each line that is counted by itself the words of a run with n of it, by n."""
        before = "".join("out %s\n" % line.replace("=", " ") for line in SETUP) + "save @4 kept\n"

        def run(line):
            def words(n):
                return ["play", "isa-4", self.put("lines", (before + (line + "\n") * n).encode())]
            return words
        for work, _, line, _ in EVENTS:
            yield work, run(line)
