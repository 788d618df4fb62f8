"""Genuine streams of QEMU 7.2 are listed and shown, and edited through `vmstate`."""
import json
import os
import stat

from tests.kit import DATA, DEVICES, DUMP, ISAPC, PC, Case, called, read
from vmstate_qemu import edit, sets
from vmstate_qemu.cut import body_of_packed, cut
from vmstate_qemu.nodes import dump_of
from vmstate_qemu.files import read_json
from vmstate_qemu.program import Shelf, path_of
from vmstate_qemu.stream import front_units, open_stream
from vmstate_qemu.values import text_lines


class Listed(Case):
    """`list` and `show`."""

    def test_sections_follow_each_other_from_the_ram_to_the_end_mark(self):
        for path in (ISAPC, PC):
            stream = open_stream(path)
            front = list(front_units(stream, stream.sections[0].at))
            ends = [(each.at, each.at + each.length) for each in front + stream.sections]
            self.assertEqual([each.what for each in front], ["ram"] * 3)
            self.assertEqual([start for start, _ in ends], [stream.start] + [end for _, end in ends[:-1]])
            self.assertEqual(ends[-1][1], stream.end)

    def test_the_list_names_each_section(self):
        rows = json.loads(self.gives(["list", "--json", ISAPC]))["sections"]
        words = [row["word"] for row in rows]
        self.assertEqual(len(words), len(set(words)), "a word names one section alone")
        self.assertEqual(words[:3] + words[19:23],
                         ["timer", "slirp", "cpu_common",
                          "isa-ide@0#1", "isa-ide@0#2", "ipmi-bmc-sim", "ipmi-interface"])
        stream = open_stream(ISAPC)
        self.assertEqual([stream.find(word).at for word in words], [row["offset"] for row in rows])
        self.assertIn("   100%       3  serial\n", self.gives(["list", ISAPC]))

    def test_a_section_is_shown_with_names(self):
        lines = self.gives(["show", ISAPC, "serial"]).splitlines()
        self.assertEqual(lines[:3], ["section serial 0 v3", "state.divider = 12", "state.rbr = 0"])

    def test_structures_of_a_version_and_nested_subsections_have_names(self):
        self.assertIn("kcs[1].outpos = 0", self.gives(["show", ISAPC, "ipmi-interface"]).splitlines())
        lines = self.gives(["show", ISAPC, "fdc@0"]).splitlines()
        at = lines.index("sub state.drives[1].fdrive/media_rate v1")
        self.assertEqual(lines[at + 1], "state.drives[1].fdrive/media_rate:media_rate = 0")

    def test_bytes_are_one_token(self):
        shown = json.loads(self.gives(["show", "--json", ISAPC, "mc146818rtc"]))["sections"][0]
        self.assertRegex(shown["values"]["cmos_data"], "^0x[0-9a-f]{256}$")

    def test_an_old_section_has_the_length_that_is_told(self):
        section = open_stream(ISAPC).find("slirp")
        self.assertEqual((section.length, section.version), (155, 4))

    def test_the_name_of_the_description_names_a_section(self):
        stream = open_stream(PC)
        self.assertEqual(stream.find("usb-ptr").name, "0000:00:02.0/1/usb-ptr")
        self.says(["show", PC, "dma@2"], 2, "no section is dma@2")
        self.says(["show", ISAPC, "isa-ide"], 2, "several sections are isa-ide: isa-ide@0#1, isa-ide@0#2")

    def test_a_stream_of_devices_alone_is_read_by_another_one(self):
        whole, devices = open_stream(ISAPC), open_stream(DEVICES, ISAPC)
        self.assertEqual([each.name for each in whole.sections], [each.name for each in devices.sections])
        for one, other in zip(whole.sections, devices.sections):
            self.assertEqual(one.part.length, other.part.length)
        self.assertEqual(devices.end, os.path.getsize(DEVICES) - 1)
        self.says(["list", DEVICES], 1, "no description is at the end; give a stream like it (--like) or a set (--set)")

    def test_a_stream_is_measured_by_a_set(self):
        one, made = self.path("one.stream"), self.path("made.json")
        self.gives(["cut", ISAPC, "serial", "i8254", "-o", one])
        self.gives(["set", ISAPC, "i8254", "serial", "-o", made])
        bare = read(one)
        rows = json.loads(self.gives(["list", "--json", "--set", made, self.put("bare", bare)]))["sections"]
        self.assertEqual([(row["name"], row["length"]) for row in rows], [("serial", 36), ("i8254", 132)])


class Edited(Case):
    """`edit`, `cut` and `put`."""

    def test_each_section_edited_to_itself_is_the_same(self):
        with Shelf(path_of()) as shelf:
            for path in (ISAPC, PC):
                stream = open_stream(path)
                for section in stream.sections:
                    body = stream.body(section)
                    self.assertEqual(edit.passed_through(shelf, section, body), body, section.word)

    def test_a_number_is_changed_and_nothing_else(self):
        new = self.path("new.stream")
        self.gives(["edit", ISAPC, "serial", "state.scr=165", "state.divider=0x180", "-o", new])
        old, got = read(ISAPC), read(new)
        differ = [at for at, (one, other) in enumerate(zip(old, got)) if one != other]
        section = open_stream(ISAPC).find("serial")
        start, _ = section.body
        self.assertEqual((len(old), differ), (len(got), [start, start + 1, start + 9]))
        self.assertEqual((got[start:start + 2], got[start + 9]), (b"\1\x80", 165))
        self.says(["diff", ISAPC, new, "nothing"], 2, "no section is nothing")
        self.assertEqual(self.gives(["diff", ISAPC, new], 4),
                         "serial state.divider: 12 -> 384\nserial state.scr: 0 -> 165\n")

    def test_a_token_and_one_byte_of_it_are_changed(self):
        new, other = self.path("new"), self.path("other")
        self.gives(["edit", PC, "usb-ptr", "dev.setup_buf=0x0102030405060708", "-o", new])
        self.gives(["edit", new, "usb-ptr", "dev.setup_buf[7]=9", "dev.addr=0x2a", "-o", other])
        self.assertEqual(self.gives(["diff", PC, other], 4).splitlines(),
                         ["0000:00:02.0/1/usb-ptr dev.addr: 0 -> 42",
                          "0000:00:02.0/1/usb-ptr dev.setup_buf: 0x0000000000000000 -> 0x0102030405060709"])

    def test_what_is_no_number_of_the_section_changes_nothing(self):
        copy = self.put("copy", read(ISAPC))
        for change, text in (("state.scr=256", "state.scr: not in the range of u8"),
                             ("state.scr=-1", "not in the range"),
                             ("state.nothing=1", "serial has no state.nothing"), ("state.scr=x", "x is no number"),
                             ("state.scr[1]=1", "serial has no state.scr[1]")):
            self.says(["edit", "--in-place", copy, "serial", change], 3, text)
        self.says(["edit", "--in-place", copy, "mc146818rtc", "cmos_data=0x00"], 3, "cmos_data is 128 bytes")
        self.says(["edit", "--in-place", copy, "serial", "state.scr"], 2, "PATH=VALUE")
        self.says(["edit", copy, "serial", "state.scr=1"], 2, "either --in-place or --output")
        self.assertEqual((read(copy), os.listdir(self.folder)), (read(ISAPC), ["copy"]))

    def test_in_place_keeps_permissions_and_links(self):
        copy, link = self.put("a $(touch pwned) b", read(ISAPC)), self.path("link")
        os.chmod(copy, 0o640)
        os.symlink(copy, link)
        self.gives(["edit", "--in-place", link, "serial", "state.scr=1"])
        self.assertTrue(os.path.islink(link))
        self.assertEqual(stat.S_IMODE(os.stat(copy).st_mode), 0o640)
        self.assertIn("state.scr = 1", self.gives(["show", copy, "serial"]))
        self.assertEqual(sorted(os.listdir(self.folder)), ["a $(touch pwned) b", "link"])

    def test_an_editor_changes_lines_and_may_not_add_any(self):
        copy = self.put("copy", read(ISAPC))
        for script, status in (("s/^state.scr = 0/state.scr = 8/", 0), ("$d", 3), ("s/^state.scr/state.scs/", 3)):
            os.environ["EDITOR"] = f"sed -i '{script}'"
            self.addCleanup(os.environ.pop, "EDITOR", None)
            self.assertEqual(called("edit", "--in-place", copy, "serial")[0], status)
        self.assertEqual(self.gives(["diff", ISAPC, copy], 4), "serial state.scr: 0 -> 8\n")

    def test_a_section_is_cut_shown_packed_and_put_back(self):
        one, made, new = (self.path(name) for name in ("one", "made.json", "new"))
        self.gives(["cut", PC, "usb-ptr", "-o", one])
        self.gives(["set", PC, "usb-ptr", "-o", made])
        with Shelf(path_of()) as shelf:
            shelf.put("made.json", read(made))
            shelf.put("values", shelf.call("show", "made.json", given=read(one)).out)
            packed = self.put("packed", shelf.call("pack", "made.json", "values").out)
        self.gives(["put", PC, "usb-ptr", packed, "-o", new])
        self.assertEqual(read(new), read(PC))
        self.says(["put", PC, "serial", packed, "-o", new], 1, "no stream of serial alone")


class Sets(Case):
    """`set`: what `vmstate show` reads under it, and packs again."""

    def test_each_section_has_a_set(self):
        dump = dump_of(read_json(DUMP), DUMP)
        with Shelf(path_of()) as shelf:
            for path, joined in ((ISAPC, None), (PC, None), (ISAPC, dump), (PC, dump)):
                stream = open_stream(path)
                for section in stream.sections:
                    maker = sets.of_stream(stream, [section], joined)
                    shelf.put("made.json", maker.whole())
                    shown = shelf.call("show", "made.json", given=cut(stream, [section]))
                    self.assertEqual(shown.status, 0, (section.word, shown.notes))
                    shelf.put("values", shown.out)
                    packed = shelf.call("pack", "made.json", "values").out
                    self.assertEqual(body_of_packed(packed, stream, section, ""), stream.body(section), section.word)

    def test_the_numbers_are_those_of_vmstate(self):
        stream = open_stream(ISAPC)
        with Shelf(path_of()) as shelf:
            for word in ("serial", "i8254", "mc146818rtc", "ipmi-interface"):
                section = stream.find(word)
                shelf.put("made.json", sets.of_stream(stream, [section], None).whole())
                shown = shelf.call("show", "made.json", given=cut(stream, [section])).out.decode()
                numbers = [line.split(" = ")[1] for line in shown.splitlines() if " = " in line]
                mine = [line.split(" = ")[1] for line in text_lines(stream, section) if " = " in line]
                spread = [str(byte) for text in mine for byte in
                          (bytes.fromhex(text[2:]) if text.startswith("0x") else [text])]
                self.assertEqual(spread, numbers, word)

    def test_a_dump_gives_versions_and_the_subsections_that_did_not_come(self):
        made = json.loads(self.gives(["set", "--dump", DUMP, ISAPC, "serial"]))["devices"][0]["desc"]
        self.assertEqual((made["version"], made["minimum"]), (3, 2))
        self.assertEqual([sub["name"] for sub in made["subsections"]],
                         ["serial/thr_ipending", "serial/tsr", "serial/recv_fifo", "serial/xmit_fifo",
                          "serial/fifo_timeout_timer", "serial/timeout_ipending", "serial/poll"])
        fcr = [each for each in made["fields"] if each["name"] == "state.fcr_vmstate" or each.get("since")]
        self.assertTrue(fcr or made["fields"][0]["kind"] == "struct")

    def test_a_set_of_a_dump_alone(self):
        got, out, notes = called("set", DUMP, "isa-i8259")
        self.assertEqual(got, 0, notes)
        self.assertEqual(json.loads(out)["devices"][0]["desc"]["name"], "i8259")
        self.assertIn("kinds are guessed from sizes", notes)
        self.says(["set", DUMP], 2, "a dump and names in it")
        self.says(["set", DUMP, "nothing"], 3, "the dump has no nothing")


class Data(Case):
    """The files of the tests themselves."""

    def test_they_are_small(self):
        for name in os.listdir(DATA):
            self.assertLess(os.path.getsize(os.path.join(DATA, name)), 100_000, name)
