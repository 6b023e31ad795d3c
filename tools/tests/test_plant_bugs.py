"""The lists of planted bugs, and the script that plants them."""

import contextlib
import io
import re
import subprocess
import tempfile
import unittest
from pathlib import Path
from unittest.mock import patch

from gate import plant_bugs
from gate.plant_bugs import LISTS, Bug, Change, ListError, bug_of, bugs_of, edit_text
from gate.repository import TOP

KEPT = "bug: reads one byte too few\ncall: Reader::read\nclause: `moved`\nedit: one_too_few"
PLANTED = """\
bug: a fault is swallowed
call: Reader::read
clause: `cause`
strengthened: it said nothing of the count
file: src/reader.rt
old:     return Err(Fault);
new:     return Ok(());
file: src/reader.rt
old: const SIZE: usize = 4;
new: const SIZE: usize = 5;"""

SOURCE = "const SIZE: usize = 4;\nfn read() {\n    return Err(Fault);\n}\n"


def wrong_changes(folder: Path, bug: Bug) -> list[Change]:
    """The changes whose old text doesn't stand once in what the earlier ones made."""
    texts: dict[str, str] = {}
    wrong = []
    for change in bug.changes:
        text = texts.get(change.file) or (folder / change.file).read_text(encoding="utf-8")
        if text.count(change.old) != 1:
            wrong.append(change)
        texts[change.file] = text.replace(change.old, change.new)
    return wrong


class Lists(unittest.TestCase):
    """The lists of the repository."""

    def test_kept_edits(self) -> None:
        """Each kept edit is in its crate's list once."""
        for name in plant_bugs.listed(TOP):
            with self.subTest(name):
                bugs = bugs_of(TOP / LISTS / f"{name}.txt")
                kept = sorted(bug.edit for bug in bugs if bug.edit)
                files = (TOP / "crates" / name / "must-fail").glob("*.edit")
                self.assertEqual(kept, sorted(path.stem for path in files))

    def test_changes(self) -> None:
        """What a bug changes stands once in the code."""
        for path in (TOP / LISTS).glob("*.txt"):
            for bug in bugs_of(path):
                with self.subTest(path.stem, bug=bug.text):
                    self.assertEqual(wrong_changes(TOP / "crates" / path.stem, bug), [])

    def test_once(self) -> None:
        """No bug is listed twice, and none that is listed with its changes is kept as an edit."""
        for name in plant_bugs.listed(TOP):
            with self.subTest(name):
                edits = (TOP / "crates" / name / "must-fail").glob("*.edit")
                kept = {path.read_text(encoding="utf-8") for path in edits}
                bugs = bugs_of(TOP / LISTS / f"{name}.txt")
                texts = [edit_text(bug) for bug in bugs if bug.changes]
                self.assertEqual([text for text in texts if text in kept], [])
                self.assertEqual(len(texts), len(set(texts)))
                self.assertEqual(len(bugs), len({(bug.text, bug.call) for bug in bugs}))

    def test_crates(self) -> None:
        """Each crate that keeps wrong bodies has a list, and each list is a crate's."""
        edits = {path.parts[-3] for path in TOP.glob("crates/*/must-fail/*.edit")}
        lists = {path.stem for path in (TOP / LISTS).glob("*.txt")}
        self.assertEqual(edits - lists, set())
        self.assertEqual(lists - {path.name for path in (TOP / "crates").iterdir()}, set())


class Parsing(unittest.TestCase):
    def test_kept(self) -> None:
        self.assertEqual(
            bug_of(KEPT),
            Bug("reads one byte too few", "Reader::read", "`moved`", edit="one_too_few"),
        )

    def test_planted(self) -> None:
        bug = bug_of(PLANTED)
        self.assertEqual(bug.strengthened, "it said nothing of the count")
        self.assertEqual(
            bug.changes,
            (
                Change("src/reader.rt", "    return Err(Fault);", "    return Ok(());"),
                Change("src/reader.rt", "const SIZE: usize = 4;", "const SIZE: usize = 5;"),
            ),
        )

    def test_wrong_bugs(self) -> None:
        group = "file: a\nold: b\nnew: c"
        for text, said in (
            ("bug: a\ncall: b\nclause: c", "either an edit or its changes"),
            (f"{KEPT}\n{group}", "either an edit or its changes"),
            ("bug: a\ncall: b\nedit: c", "missing ['clause']"),
            (f"{KEPT}\nkind: d", "unknown ['kind']"),
            (f"{KEPT}\nedit: d", "a key comes twice"),
            ("bug", "no key: 'bug'"),
            (f"bug: a\ncall: b\nclause: c\n{group}\nfile: d", "no file, old and new"),
            (f"bug: a\ncall: b\nclause: c\n{group.replace('c', 'b')}", "changes nothing: 'b'"),
        ):
            with self.subTest(text), self.assertRaisesRegex(ListError, re.escape(said)):
                bug_of(text)


class Planting(unittest.TestCase):
    """Over a repository of one crate."""

    def setUp(self) -> None:
        folder = tempfile.TemporaryDirectory()
        self.addCleanup(folder.cleanup)
        self.top = Path(folder.name)
        for path, text in (
            ("crates.txt", "# all\nother:\nreader: other\n"),
            ("crates/reader/src/reader.rt", SOURCE),
            ("crates/reader/must-fail/one_too_few.edit", "kept"),
            (f"{LISTS}/reader.txt", f"{KEPT}\n\n{PLANTED}\n"),
        ):
            (self.top / path).parent.mkdir(parents=True, exist_ok=True)
            (self.top / path).write_text(text, encoding="utf-8")

    def edits(self) -> dict[str, str]:
        folder = self.top / "crates/reader/must-fail"
        return {path.name: path.read_text(encoding="utf-8") for path in folder.iterdir()}

    def plant(self, said: str) -> tuple[bool, str]:
        """Whether all were refused, and what is printed, where the prover says this."""

        def run(command: list[str], **_: object) -> subprocess.CompletedProcess[str]:
            self.seen = self.edits()
            self.assertEqual(command, ["rt", "must-fail", "reader"])
            return subprocess.CompletedProcess(command, 0, stdout=said)

        printed = io.StringIO()
        with patch.object(subprocess, "run", run), contextlib.redirect_stdout(printed):
            return plant_bugs.try_bugs(self.top, "reader"), printed.getvalue()

    def test_refused(self) -> None:
        said = "rt: must-fail reader/planted_01.edit: refused, as it must be: `returns`\n"
        refused, printed = self.plant(said)
        self.assertTrue(refused)
        self.assertEqual(
            printed,
            "reader: a fault is swallowed: refused, as it must be: `returns`\n",
        )
        self.assertEqual(
            self.seen,
            {"one_too_few.edit": "kept", "planted_01.edit": PLANTED.partition("count\n")[2] + "\n"},
        )
        self.assertEqual(self.edits(), {"one_too_few.edit": "kept"})

    def test_not_refused(self) -> None:
        for said, verdict in (
            ("rt: must-fail reader/planted_01.edit: NOT REFUSED", "NOT REFUSED"),
            ("rt: reader is not proved", "not tried"),
        ):
            with self.subTest(said):
                refused, printed = self.plant(said)
                self.assertFalse(refused)
                self.assertIn(f"reader: a fault is swallowed: {verdict}\n", printed)

    def test_together(self) -> None:
        """A bug of a constant is alone, and one that is not told of; a verdict is by function."""
        faults = "fn read() {\n    a;\n}\nfn write() {\n    b;\n}\n"
        (self.top / "crates/reader/src/faults.rt").write_text(faults)
        said = "bug: {0}\ncall: r\nclause: c\nfile: src/faults.rt\nold: {0};\nnew: d;"
        bugs = "\n\n".join([PLANTED, said.format("    a"), said.format("    b")])
        (self.top / LISTS / "reader.txt").write_text(bugs)
        seen = []

        def run(command: list[str], **_: object) -> subprocess.CompletedProcess[str]:
            self.assertEqual(command, ["rt", "check", "--allow-holes"])
            folder = self.top / "crates/reader/src"
            seen.append({path.name: path.read_text() for path in folder.iterdir()})
            write = "no holes" if len(seen) == 3 else "not proved; it calls `r`"
            text = f"fn reader::faults::R::read: no proof: a\nfn reader::faults::write: {write}\n"
            return subprocess.CompletedProcess(command, 0, stdout=text)

        printed = io.StringIO()
        with patch.object(subprocess, "run", run), contextlib.redirect_stdout(printed):
            self.assertFalse(plant_bugs.plant_together(self.top, "reader"))
        self.assertEqual(
            printed.getvalue(),
            "reader: a fault is swallowed: refused: no proof: a\n"
            "reader:     a: refused: no proof: a\n"
            "reader:     b: NOT REFUSED\n",
        )
        changed = SOURCE.replace("return Err(Fault);", "return Ok(());").replace("4;", "5;")
        self.assertEqual(seen[0], {"reader.rt": changed, "faults.rt": faults})
        together = faults.replace("    a;", "d;").replace("    b;", "d;")
        self.assertEqual(seen[1], {"reader.rt": SOURCE, "faults.rt": together})
        alone = faults.replace("    b;", "d;")
        self.assertEqual(seen[2:], [{"reader.rt": SOURCE, "faults.rt": alone}])
        self.assertEqual((self.top / "crates/reader/src/reader.rt").read_text(), SOURCE)

    def test_together_in_a_definition(self) -> None:
        """A changed definition is put back, also where the check breaks off."""
        path = self.top / "crates/reader/specs/Sizes.antt"
        path.parent.mkdir()
        path.write_text("size = 4\n")
        bug = "bug: a\ncall: b\nclause: c\nfile: specs/Sizes.antt\nold: 4\nnew: 5\n"
        (self.top / LISTS / "reader.txt").write_text(bug)

        def run(command: list[str], **_: object) -> subprocess.CompletedProcess[str]:
            self.assertEqual(path.read_text(), "size = 5\n")
            raise OSError("no rt")

        with patch.object(subprocess, "run", run), self.assertRaisesRegex(OSError, "no rt"):
            plant_bugs.plant_together(self.top, "reader")
        self.assertEqual(path.read_text(), "size = 4\n")

    def test_lines_of_a_check(self) -> None:
        """A function that calls an unproved one, and has no gap of its own, tells nothing."""
        for said, verdict in (
            ("no proof: it calls `r::a::c`, which is not proved", "not told"),
            ("no proof: expected answers; `search` did not prove `y`; it calls `z`", "refused"),
            ("not proved; it calls `r::a::c`, which is not proved", "not told"),
            ("not proved; it stands on `r.proofs.a.b.returns`, which antt refuses", "refused"),
            ("no holes", "NOT REFUSED"),
            ("proved", "NOT REFUSED"),
        ):
            with self.subTest(said):
                lines = f"fn r::a::other: no proof: x\nfn r::a::T::b: {said}\n"
                told = plant_bugs.verdict_in(lines, "r", {("src/a.rt", "b")})
                self.assertEqual(told.partition(":")[0], verdict)

    def test_table(self) -> None:
        self.assertEqual(
            plant_bugs.table_of(self.top, ["reader"]),
            "## `reader`: 2\n\n"
            "| Bug | Call | Refused by | Kept as |\n|---|---|---|---|\n"
            "| reads one byte too few | `Reader::read` | `moved` | `one_too_few` |\n"
            "| a fault is swallowed | `Reader::read` "
            "| `cause`; it said nothing of the count |  |\n",
        )

    def test_wrong_list(self) -> None:
        (self.top / LISTS / "reader.txt").write_text("bug\n")
        said = io.StringIO()
        with patch.object(plant_bugs, "TOP", self.top), contextlib.redirect_stderr(said):
            self.assertEqual(plant_bugs.main(["table"]), 2)
        self.assertEqual(said.getvalue(), "plant_bugs: reader.txt: no key: 'bug'\n")


if __name__ == "__main__":
    unittest.main()
