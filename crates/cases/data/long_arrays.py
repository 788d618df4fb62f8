"""Writes the topic long_arrays and the files that it names into the current folder.

All of it is worked out from the rules of docs/format.md, docs/values.md and docs/compatibility.md. No program is asked.
"""
import json

WIDTH = {"u8": 1, "u16": 2, "u32": 4, "u64": 8, "i8": 1, "i16": 2, "i32": 4, "i64": 8, "bool": 1, "timer": 8}
HEAD = 25  # the bytes of the stream head and of the head of the section box 0


def box(fields, structs=(), subsections=(), **more):
    """A set of one device."""
    desc = {"fields": fields, "name": "box", "version": 1, **more}
    if subsections:
        desc["subsections"] = list(subsections)
    return {"devices": [{"desc": desc, "instance": 0}], "machines": ["lab"], "structs": list(structs)}


def words(count):
    return {"count": count, "default": 513, "kind": "u16", "name": "v"}


def counted_words(capacity):
    return [{"kind": "u16", "name": "n"}, {"capacity": capacity, "counted": "n", "kind": "u32", "name": "v"}]


ROW = {"fields": [{"kind": "u8", "name": "a"}, {"count": 130, "kind": "i16", "name": "v"}, {"kind": "u8", "name": "b"}],
       "name": "row", "version": 1}
TAIL = {"fields": [{"count": 257, "default": -5, "kind": "i8", "name": "w"}], "name": "box/tail",
        "needed": {"is": "eq", "mask": 255, "parent": "on", "value": 1}, "version": 1}
LATER = {"count": 200, "default": -9, "kind": "i32", "name": "w", "since": 2}
SETS = {
    "fixed": box([words(300)]),
    "shorter": box([words(299)]),
    "longer": box([words(301)]),
    "late": box([words(300), LATER], minimum=1, version=2),
    "counted": box(counted_words(300)),
    "small": box(counted_words(299)),
    "flags": box([{"count": 300, "kind": "bool", "name": "v"}]),
    "parts": box([{"count": 2, "kind": "struct", "name": "rows", "struct": 0},
                  {"count": 129, "kind": "timer", "name": "t"}, {"kind": "u8", "name": "on"}], [ROW], [TAIL]),
}


class State:
    """A state of a set: the units of its stream, each with its first byte and the section that a cut there names, the
    lines of its text, and the places of its numbers in the stream."""

    def __init__(self, name, number, version=None, machine=None):
        parts = SETS[name]
        device = parts["devices"][0]["desc"]
        self.structs, self.number = parts["structs"], number
        self.numbers, self.places, self.units, self.size, self.lines = {}, {}, [], 0, []
        version = device["version"] if version is None else version
        self.unit("-", b"QEVM")
        self.unit("-", be32(3))
        if machine:
            self.unit("-", b"\7" + be32(len(machine)) + machine.encode())
            self.lines.append("machine " + machine)
        self.unit("-", b"\4" + be32(0) + b"\3box" + be32(0) + be32(version))
        self.lines.append("section box 0 v%d" % version)
        told = {"fields": self.part(device["fields"], "", version, True), "instance_id": 0, "name": "box",
                "subsections": [self.subsection(sub) for sub in device.get("subsections", [])], "version": version}
        self.unit("box/0", b"\x7e" + be32(0))
        self.unit("-", b"\0")
        self.told = json.dumps({"devices": [told]}, separators=(",", ":")).encode()

    def unit(self, section, some):
        self.units.append((self.size, section, some))
        self.size += len(some)

    def subsection(self, sub):
        needed, name, version = sub["needed"], sub["name"], sub["version"]
        sent = self.numbers[needed["parent"]] == needed["value"]
        if sent:
            self.unit("box/0", b"\5" + bytes([len(name)]) + name.encode() + be32(version))
        self.lines.append("sub %s %s" % (name, "v%d" % version if sent else "-"))
        return {"fields": self.part(sub["fields"], "", version, sent), "name": name, "sent": sent, "version": version}

    def part(self, fields, path, version, there):
        """The elements of a part, which are its units where they stand in the stream."""
        told = []
        for field in fields:
            present = there and field.get("since", 0) <= version
            count = self.numbers[path + field["counted"]] if "counted" in field else field.get("count", 1)
            for i in range(count):
                name = path + field["name"] + ("[%d]" % i if "count" in field or "counted" in field else "")
                if field["kind"] == "struct":
                    told += self.part(self.structs[field["struct"]]["fields"], name + ".", 1, present)
                else:
                    told.append(self.cell(field, name, present))
        return told

    def cell(self, field, name, present):
        kind = field["kind"]
        value = self.number(name, kind) if present else field.get("default", 0)
        told = {"name": name, "size": WIDTH[kind] if present else 0, "type": kind}
        if present:
            self.places[name] = self.size
            self.unit("box/0", (value % 256 ** WIDTH[kind]).to_bytes(WIDTH[kind], "big"))
        else:
            told["value"] = value
        self.numbers[name] = value
        self.lines.append("%s = %d" % (name, value))
        return told

    def bare(self):
        """The stream without a description."""
        return b"".join(some for _, _, some in self.units)

    def whole(self):
        """The stream with the description of itself."""
        return self.bare() + b"\6" + be32(len(self.told)) + self.told

    def text(self):
        return "".join(line + "\n" for line in self.lines)


def be32(number):
    return number.to_bytes(4, "big")


def some(seed, **given):
    """Numbers for paths, any of their kinds, but for those that are given."""
    def number(name, kind):
        if name in given:
            return given[name]
        x = seed
        for byte in name.encode():
            x = (x * 31 + byte) * 2654435761 % 2 ** 64
        x = x >> 3 ^ x << 17
        if kind == "bool":
            return x >> 9 & 1
        size = 256 ** WIDTH[kind]
        return x % size - size * (kind[0] == "i" and x % size >= size // 2)
    return number


FIXED, FLAGS, COUNTED = State("fixed", some(1)), State("flags", some(3)), State("counted", some(2, n=300))
PARTS = State("parts", some(4, on=1), machine="lab")
STATES = {"fixed": FIXED, "counted": COUNTED, "flags": FLAGS, "parts": PARTS}

# The text of the topic.

ABOUT = "arrays of more than 128 numbers, which a walk takes in pieces: whole, cut at each length, bad in each piece"
OUT = ['about = "%s"\n\n# Written by long_arrays.py.\n' % ABOUT]


def quoted(value):
    return json.dumps(value, ensure_ascii=False)


def remark(text):
    OUT.append("\n# %s\n" % text)


def case(name, *words, cut="", **keys):
    OUT.append("\n[[case]]\nname = %s\nwords = %s\n" % (quoted(name), quoted(words)))
    for key, value in keys.items():
        if key == "out":
            OUT.append('out = """\n%s"""\n' % value)
        else:
            OUT.append("%s = %s\n" % (key.replace("__", "."), quoted(value)))
    OUT.append(cut)


def refused(at, section, reason):
    return "refused at %d in %s: %s" % (at, section, reason)


def cuts(state, last=None):
    """Where the input ends early, the unit in which it does is refused; `last` is the place of the last one."""
    rows = [(at, refused(at, section, "Truncated")) for at, section, _ in state.units if last is None or at <= last]
    return "cut = [\n%s]\n" % "".join("    { from = %d, line = %s },\n" % (at, quoted(text)) for at, text in rows)


def keep(name, content):
    with open(name, "wb") as file:
        file.write(content)


def write_head():
    OUT.append("\n[files]\n")
    for name, state in STATES.items():
        keep("long-%s.stream" % name, state.whole())
        keep("long-%s.values" % name, state.text().encode())
        OUT.append('%s = "long-%s.stream"\n%s_values = "long-%s.values"\n' % (name, name, name, name))
    OUT.append("\n[bytes]\n# the head of a stream and of the section box 0 at version 1, a footer and the end mark\n")
    OUT.append('box = "%s"\nend = "7e 00000000 00"\n' % FIXED.bare()[:HEAD].hex())
    OUT.append("\n[shelf]\n")
    for name, parts in SETS.items():
        OUT.append("%s.text = '%s'\n" % (name, json.dumps(parts, sort_keys=True, separators=(",", ":"))))


def bare(name):
    """The stream of a state without a description, as a row."""
    return "@%s[..%d]" % (name, len(STATES[name].bare()))


def write_whole():
    remark("whole: shown, listed by their own description, and packed")
    for name, state in STATES.items():
        values, whole = "@%s_values" % name, len(state.whole())
        case(name + ": shown", "show", name, input=bare(name), pieces=[5000, 1, 2, 3, 7, 100, 255, 256, 257],
             taken=len(state.bare()), stream=values)
        case(name + ": shown with its description", "show", name, input="@" + name, taken=whole, stream=values)
        case(name + ": listed", "analyze", input="@" + name, pieces=[50000, 257], taken=whole, stream=values)
        case(name + ": packed", "pack", name, "v", shelf__v__bytes=values, stream="@" + name)


def write_cut():
    remark("cut at each length: the number that isn't whole is refused")
    for name in ("fixed", "counted"):
        case(name + ": cut", "show", name, input=bare(name), taken=len(STATES[name].bare()),
             stream="@%s_values" % name, cut=cuts(STATES[name]))
    remark("arrays in structures and in a subsection, cut at numbers and inside them")
    near = ["rows[%d].v[%d]" % (row, item) for row in (0, 1) for item in (0, 3, 127, 128, 129)]
    near += ["rows[0].b", "rows[1].a", "t[0]", "t[127]", "t[128]", "on"]
    near += ["w[%d]" % item for item in (0, 127, 128, 129, 255, 256)]
    long = {at for at, _, some in PARTS.units if len(some) > 1}
    for item in near:
        at = PARTS.places[item]
        for where, length in (("at", at), ("inside", at + 1)):
            if where == "at" or at in long:
                case("parts: cut %s %s" % (where, item), "show", "parts", input="@parts[..%d]" % length,
                     pieces=[5000, 100], status=1, line=refused(at, "box/0", "Truncated"), taken=length)
    size = len(FIXED.bare())
    remark("A stream of %d bytes that come one by one takes %d reads, of which the last one finds the end."
           % (size, size + 1))
    case("fixed: each read fails", "show", "fixed", input=bare("fixed"), pieces=[1], each_fails__reads=size + 1,
         status=5, line="read fault")
    case("fixed: a later read would fail", "show", "fixed", input=bare("fixed"), pieces=[1], fails__reads=[size + 2],
         taken=size, stream="@fixed_values")


def write_counts():
    remark("a count: as many numbers are read, and no more")
    first = COUNTED.text().index("v[0]")
    for count in (0, 1, 3, 4, 127, 128, 129, 256, 257):
        state, end = State("counted", some(2, n=count)), HEAD + 2 + 4 * count
        head = "section box 0 v1\nn = %d\n" % count
        last = first + len(state.text()) - len(head)
        assert state.text() == head + COUNTED.text()[first:last]
        assert state.bare()[HEAD + 2:-6] == COUNTED.bare()[HEAD + 2:end]
        case("counted: %d" % count, "show", "counted", input="$box %04x @counted[%d..%d] $end" % (count, HEAD + 2, end),
             pieces=[5000, 1, 511, 512, 513], taken=len(state.bare()),
             stream="%s @counted_values[%d..%d]" % (head.encode().hex(), first, last))
    for count in (301, 65535):
        case("counted: %d" % count, "show", "counted", input="$box %04x @counted[%d..]" % (count, HEAD + 2), status=1,
             line=refused(HEAD, "box/0", "CountTooLarge"), taken=HEAD + 2)


def with_bad(*items, byte=2, end=None):
    """The stream of flags with this byte for these."""
    row, at = "", 0
    for item in items:
        place = FLAGS.places["v[%d]" % item]
        row += "@flags[%d..%d] %02x " % (at, place, byte)
        at = place + 1
    return row + "@flags[%d..%s]" % (at, "" if end is None else end)


def write_bad_bools():
    remark("the first bool that is neither 0 nor 1 is refused, and nothing behind it is read")
    size = len(FLAGS.bare())
    for item, byte in ((0, 2), (3, 255), (126, 2), (127, 255), (128, 2), (129, 255), (200, 2), (255, 255), (256, 2),
                       (257, 255), (299, 2)):
        at = HEAD + item
        case("flags: %d at %d" % (byte, item), "show", "flags", input=with_bad(item, byte=byte, end=size),
             pieces=[5000, 100], status=1, line=refused(at, "box/0", "BadBool"), taken=at + 1)
    line = refused(HEAD + 129, "box/0", "BadBool")
    case("flags: 2 at 129 and at 200", "show", "flags", input=with_bad(129, 200, end=size), status=1, line=line,
         taken=HEAD + 130)
    line = refused(HEAD + 200, "box/0", "BadBool")
    case("flags: 2 at 200, cut", "show", "flags", input="@flags[..%d] 02" % (HEAD + 200), status=1, line=line,
         taken=HEAD + 201, cut=cuts(FLAGS, HEAD + 200))
    case("flags: 2 at 200, listed", "analyze", input=with_bad(200), status=1,
         line=refused(HEAD + 200, "-", "Mismatch"))


def write_other_descriptions():
    remark("a description of one number fewer, and of one more: the footer isn't where it must be")
    size, told = len(FIXED.bare()), FIXED.told
    last = told.index(b',{"name":"v[299]"')
    end = told.index(b"}", last) + 1
    more = told[last:end].replace(b"299", b"300")
    behind = size + 5
    case("fixed: listed as 299", "analyze", input="%s 06 %08x @fixed[%d..%d] @fixed[%d..]" % (
        bare("fixed"), len(told) - len(more), behind, behind + last, behind + end), status=1,
         line=refused(HEAD + 2 * 299, "-", "Mismatch"))
    case("fixed: listed as 301", "analyze", input="%s 06 %08x @fixed[%d..%d] %s @fixed[%d..]" % (
        bare("fixed"), len(told) + len(more), behind, behind + end, more.hex(), behind + end), status=1,
         line=refused(HEAD + 2 * 301, "-", "Mismatch"))


def text_case(what, name, number, line, refusal):
    """The text of a state with another line, or none, for that of this number, counted from 1."""
    lines = STATES[name].text().splitlines(keepends=True)
    first, end = len("".join(lines[:number - 1])), len("".join(lines[:number]))
    case("%s: %s" % (name, what), "pack", name, "v", status=3, line="values line %d: %s" % refusal,
         shelf__v__bytes="@%s_values[..%d] %s @%s_values[%d..]" % (name, first, line.encode().hex(), name, end))


def write_texts():
    remark("texts with another line; the number v[0] of fixed and flags stands in line 2, that of counted in line 3")
    for item, number in ((127, "65536"), (128, "-1"), (200, "007"), (299, "65536")):
        line = "v[%d] = %s" % (item, number)
        text_case(line, "fixed", item + 2, line + "\n", (item + 2, "Number"))
    text_case("v[200] = 2", "flags", 202, "v[200] = 2\n", (202, "Number"))
    text_case("v[200] left out", "fixed", 202, "", (202, "Form"))
    text_case("v[299] left out", "fixed", 301, "", (301, "Form"))
    text_case("v[299] left out", "counted", 302, "", (302, "Form"))
    text_case("n = 301", "counted", 2, "n = 301\n", (2, "Count"))
    text_case("n = 299", "counted", 2, "n = 299\n", (302, "Form"))
    remark("out has no room for the whole stream")
    for item in (0, 127, 128, 129, 256, 299):
        case("fixed: room for half of v[%d]" % item, "pack", "fixed", "v", room=FIXED.places["v[%d]" % item] + 1,
             shelf__v__bytes="@fixed_values", begun=True, status=6, line="write fault", stream="@fixed")


def write_other_sets():
    remark("an older set without the second array, which is at its default in what its stream carries")
    carried = State("late", some(1), version=1)
    assert carried.bare() == FIXED.bare() and carried.lines[:301] == FIXED.lines
    case("fixed under late: compatible", "check", "fixed", "late", out="compatible\n")
    case("fixed under late: shown", "show", "late", input="@fixed", pieces=[5000, 257], taken=len(FIXED.whole()),
         out=carried.text())
    remark("sets that aren't compatible: the rule, and a state of the older one that shows it")
    words = State("fixed", lambda name, kind: 513)
    numbers = State("counted", lambda name, kind: 300 if name == "n" else 0)
    late = State("late", lambda name, kind: 513 if name[0] == "v" else -9)
    length, both = "rule 7 at device 0 field 0 against device 0 field 0", "at device 0 field 1 against device 0 field 1"
    for old, new, rule, state, at, section, reason, why in (
            ("late", "fixed", "rule 4 at device 0 against device 0", late, 8, "box/0", "TooNew", ""),
            ("fixed", "shorter", length, words, HEAD + 2 * 299, "-", "Iterative",
             "behind 299 numbers stands 0201, and 02 is the mark of a section in parts"),
            ("fixed", "longer", length, words, HEAD + 2 * 301 + 1, "-", "Trailing",
             "number 301 is 7e00, of the footer, and the 00 behind it is taken for the end mark"),
            ("counted", "small", "rule 11 " + both, numbers, HEAD, "box/0", "CountTooLarge", "")):
        if why:
            remark(why)
        line = "not compatible: " + rule
        case("%s under %s: refused" % (old, new), "check", old, new, status=4, line=line)
        case("%s under %s: a state" % (old, new), "counter", old, new,
             out="%s\n%s\n%s" % (line, refused(at, section, reason), state.text()))


write_head()
write_whole()
write_cut()
write_counts()
write_bad_bools()
write_other_descriptions()
write_texts()
write_other_sets()
keep("long_arrays.toml", "".join(OUT).encode())
