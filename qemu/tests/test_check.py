"""`check` and `explain`: every fault of two dumps, streams or sets, by names."""
import copy
import json

from tests.kit import DUMP, ISAPC, PC, Case, called, read


class Check(Case):
    """Two dumps that differ."""

    def findings(self, change) -> list:
        """Returns the findings of the dump and of the dump after `change`, as (rule, section, old, new)."""
        new = json.loads(read(DUMP))
        change(new)
        path = self.put("new.json", json.dumps(new).encode())
        got, out, notes = called("check", "--json", DUMP, path)
        found = json.loads(out)
        self.assertEqual(got, 0 if found["compatible"] else 4, notes)
        self.assertTrue(found["complete"])
        return [(each["rule"], each["section"], each["old"], each["new"]) for each in found["findings"]]

    def test_the_same_dump_is_compatible(self):
        self.assertEqual(self.findings(lambda new: None), [])
        self.assertIn("compatible: 0 faults", self.gives(["check", DUMP, DUMP]))

    def test_each_kind_of_fault_is_named(self):
        def serial(new):
            return new["isa-serial"]["Description"]["Fields"][0]["Description"]

        def fdc(new):
            return new["isa-fdc"]["Description"]

        def wider(new):
            serial(new)["Fields"][0]["size"] = 4
        self.assertEqual(self.findings(wider), [(8, "isa-serial", "divider (u16)", "divider (u32)")])
        self.assertEqual(self.findings(lambda new: new.pop("isa-pit")), [(2, "isa-pit", "i8254", "")])
        self.assertEqual(self.findings(lambda new: serial(new)["Subsections"].pop(2)),
                         [(13, "isa-serial", "serial/recv_fifo", "")])
        self.assertEqual(self.findings(lambda new: serial(new)["Fields"].pop(3))[0][:3],
                         (10, "isa-serial", "iir (u8)"))
        self.assertEqual(self.findings(lambda new: serial(new)["Fields"].insert(2, {
            "field": "more", "version_id": 0, "field_exists": False, "size": 1}))[0],
            (10, "isa-serial", "ier (u8)", "more (u8)"))
        self.assertEqual(self.findings(lambda new: serial(new)["Fields"][1].update(field="rbr2")),
                         [(10, "isa-serial", "rbr (u8)", "rbr2 (u8)")])
        self.assertEqual(self.findings(lambda new: fdc(new).update(minimum_version_id=9, version_id=9))[0][0], 4)

    def test_all_faults_come_at_once(self):
        def many(new):
            new.pop("isa-pit")
            port = new["isa-serial"]["Description"]["Fields"][0]["Description"]
            port["Fields"][0]["size"] = 4
            port["Fields"][5]["field"] = "mcr2"
            del port["Subsections"][1:3]
            new["isa-i8259"]["Description"]["Fields"].pop()
        self.assertEqual([rule for rule, *_ in self.findings(many)], [2, 8, 10, 13, 13, 5])

    def test_fields_that_moved_into_a_structure_are_no_fault(self):
        def moved(new):
            fields = new["isa-pit"]["Description"]["Fields"]
            inner = {"name": "inner", "version_id": 3, "minimum_version_id": 1, "Fields": fields[:1]}
            fields[:1] = [{"field": "inner", "version_id": 0, "field_exists": False, "size": 64, "Description": inner}]
        self.assertEqual(self.findings(moved), [])

    def test_what_no_rule_is_about_is_a_remark(self):
        def lower(new):
            new["mc146818rtc"]["Description"]["Fields"][-1]["version_id"] = 2
        found = self.findings(lower)
        self.assertEqual([rule for rule, *_ in found], [None])
        self.assertEqual(called("check", "--strict", DUMP, self.path("new.json"))[0], 4)

    def test_two_streams(self):
        self.assertIn("compatible: 0 faults", self.gives(["check", ISAPC, ISAPC]))
        found = json.loads(self.gives(["check", "--json", ISAPC, PC], 4))["findings"]
        sections = {(each["rule"], each["section"]) for each in found}
        self.assertLessEqual({(2, "slirp"), (2, "ipmi-interface"), (3, "ioapic"), (None, "machine")}, sections)

    def test_files_of_different_kinds(self):
        self.says(["check", ISAPC, DUMP], 2, "of different kinds")
        self.says(["check", DUMP, self.put("x", b"{}")], 3, "no stream, no -dump-vmstate and no description file")
        self.says(["check", DUMP, self.put("y", b"{")], 3, "no JSON")
        self.says(["check", DUMP, self.put("z", b'{"vmschkmachine": 1}')], 3, "not as -dump-vmstate writes it")


class Sets(Case):
    """Two description files that differ, and lines about them."""

    def setUp(self):
        super().setUp()
        self.old = json.loads(self.gives(["set", ISAPC, "i8254", "pckbd", "pcspk"]))

    def faults(self, change) -> list:
        """Returns the findings of the set and of the set after `change`."""
        new = copy.deepcopy(self.old)
        change(new)
        one, other = (self.put(name, json.dumps(side).encode()) for name, side in (("old", self.old), ("new", new)))
        return json.loads(called("check", "--json", one, other)[1])["findings"]

    def test_several_faults(self):
        def change(new):
            new["machines"] = []
            new["structs"][0]["fields"][2]["name"] = "other"
            new["devices"][1]["desc"]["fields"].pop()
            del new["devices"][2]
        self.assertEqual([each["rule"] for each in self.faults(change)], [1, 2, 10, 5])

    def test_a_set_that_is_refused_is_said_to_be(self):
        bad = self.put("bad", b'{"machines": [], "structs": [], "devices": [7]}')
        self.says(["check", bad, bad], 3, "Shape at devices.0")

    def test_a_line_is_explained(self):
        path = self.put("set", json.dumps(self.old).encode())
        line = "not compatible: rule 7 at device 0 field 0 against struct 0 field 1"
        got = json.loads(self.gives(["explain", "--json", path, path, line]))
        self.assertEqual((got["rule"], got["old"][0], got["says"]), (7, "i8254", "the lengths differ"))
        self.says(["explain", path, path, "compatible"], 3, "no line of vmstate check")
        self.says(["explain", path, path, line.replace("device 0", "device 9")], 3, "of other sets")
        for rule in (1, 2, 3):
            self.says(["explain", path, path, f"not compatible: rule {rule} at set against set"], 3, "of other sets")
