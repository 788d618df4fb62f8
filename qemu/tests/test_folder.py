"""`folder`, and the words of the program."""
import json
import os

from tests.kit import DEVICES, ISAPC, PC, Case, called, read


class Folder(Case):
    """Many files of any names."""

    def test_each_file_is_judged_whatever_its_name(self):
        whole = read(ISAPC)
        names = ["a b", "$(touch pwned)", "line\nfeed", "-", "--help", "caf\u00e9"]
        for name in names:
            self.put(name, whole)
        self.put("cut", whole[:30000])
        self.put("empty", b"")
        found = json.loads(self.gives(["folder", "--json", self.folder], 1))
        self.assertEqual((found["files"], found["read"]), (8, 6))
        self.assertEqual([os.path.basename(each["file"]) for each in found["refused"]], ["cut", "empty"])
        self.assertNotIn("pwned", os.listdir("."))

    def test_a_folder_is_judged_by_a_set(self):
        made = self.path("made $(set)")
        self.gives(["set", ISAPC, "serial", "-o", made])
        folder = self.path("streams")
        os.mkdir(folder)
        self.gives(["cut", ISAPC, "serial", "-o", os.path.join(folder, "good one")])
        self.gives(["cut", ISAPC, "serial", "pcspk", "-o", os.path.join(folder, "another")])
        got, out, notes = called("folder", "--progress", "--jobs", "2", "--set", made, folder)
        self.assertEqual(got, 1, out)
        self.assertTrue(out.splitlines()[0].endswith("another: refused at 44 in -: UnknownSection"), out)
        self.assertEqual(out.splitlines()[1:], ["       1 refused in -: UnknownSection", "       1 read"])
        self.assertIn("2/2 1 refused, 0 s left", notes)
        self.assertEqual(json.loads(self.gives(["folder", "--json", "--set", "@4", folder], 1))["reasons"],
                         {"refused in -: BadMark": 1, "refused in serial/0: Truncated": 1})
        self.says(["folder", "--set", self.put("bad", b"{}"), folder], 3, "bad: set set.json: Shape at file")

    def test_a_folder_is_judged_by_a_stream_like_its_own(self):
        folder = self.path("streams")
        os.mkdir(folder)
        os.link(self.put("copy", read(DEVICES)), os.path.join(folder, "1"))
        self.assertEqual(self.gives(["folder", "--like", ISAPC, folder]), "       1 read\n")
        self.assertEqual(called("folder", "--like", PC, folder)[0], 1)


class Words(Case):
    """What is said of words and files that aren't right."""

    def test_help(self):
        for words in (["--help"], ["save", "--help"], ["edit", "--help"], ["folder", "--help"]):
            self.assertIn("usage: vmstate-qemu", self.gives(words))

    def test_bad_words_have_status_2(self):
        for words in ([], ["nothing"], ["list"], ["edit", ISAPC], ["folder", ".", "--jobs", "x"], ["folder", ".", "--jobs", "0"]):
            self.assertEqual(called(*words)[0], 2, words)

    def test_files_that_are_not_there(self):
        none = self.path("none")
        for words in (["list", none], ["show", none], ["diff", ISAPC, none], ["check", none, none], ["folder", none],
                      ["set", none], ["save", none, none], ["list", "--like", none, DEVICES],
                      ["put", ISAPC, "serial", none, "-o", none]):
            self.says(words, 5, "No such file")
        self.says(["edit", ISAPC, "serial", "state.scr=1", "-o", os.path.join(none, "x")], 5, "No such file")

    def test_a_program_that_is_not_there(self):
        self.says(["--vmstate", self.path("none"), "edit", ISAPC, "serial", "state.scr=1", "-o", self.path("x")], 5,
                  "no such program")
        self.assertEqual(os.listdir(self.folder), [])
