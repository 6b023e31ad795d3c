"""The tables of the map, as the page has them, and the script that prints them."""

import re
import tempfile
import unittest
from pathlib import Path

from command_line import Refusal
from gate import map_tables
from gate.map_tables import PAGE, first_sentence, levels_of, longest_chain, with_tables
from gate.repository import TOP, crates

CRATES = """\
# the lowest first
base: thiserror
cable staticlib: base
text:   # no library
top may_wait=2: text cable
"""
FILES = {
    "crates.txt": CRATES,
    "crates/base/src/lib.rt": "//! Numbers of 1.5 bytes. And more.\n//!\n//! Further.\n",
    "crates/cable/src/lib.rt": "#![tactic(auto)]\n//! A cable,\n//! or two\n//!\n//! Not this.\n",
    "crates/cable/README.md": "",
    "crates/text/src/lib.rt": "mod a;\n",
    "crates/top/src/main.rt": "//! The program: a | b.\n",
    "crates/base/specs/Lib.antt": "pub mod Whole\n",
    "crates/base/specs/Whole.antt": "-- Whole numbers (RFC 1, section\n-- 2.3). Parts.\n\n-- No.\n",
    "crates/base/specs/Half.antt": "use Whole\n\n-- a half\nhalf = 1\n",
    "crates/text/specs/Text.antt": "text = 1\n",
}
LEVELS = """\
| Level | Crate | What it is for | Uses |
|---|---|---|---|
| 1 | `base` | Numbers of 1.5 bytes | thiserror |
| 1 | `text` | (its file doesn't say) |  |
| 2 | [`cable`](../crates/cable/README.md) | A cable, or two | base |
| 3 | `top` | The program: a \\| b | text, cable |

The longest chain has 3 crates: `base`, `cable`, `top`."""
OWNERS = """\
| Crate | File of `specs/` | What it owns |
|---|---|---|
| `base` | `Half` | a half |
|  | `Whole` | Whole numbers (RFC 1, section 2.3) |
| `text` | `Text` | (its file doesn't say) |"""
BEGINS = [map_tables.marks_of(table)[0] for table in ("levels", "owners")]
ENDS = [map_tables.marks_of(table)[1] for table in ("levels", "owners")]


class Page(unittest.TestCase):
    def test_page(self) -> None:
        """The page has the tables as they are printed now: `python3 tools map_tables --write`."""
        page = (TOP / PAGE).read_text(encoding="utf-8")
        self.assertEqual(page, with_tables(page, TOP))

    def test_order(self) -> None:
        """crates.txt has each crate behind those that it uses."""
        seen: set[str] = set()
        uses = crates(TOP)
        for name, used in uses.items():
            self.assertEqual([other for other in used if other in uses and other not in seen], [])
            seen.add(name)

    def test_pages_of_crates(self) -> None:
        """Each crate has a page, and the links of all pages lead somewhere."""
        pages = [TOP / f"crates/{name}/README.md" for name in crates(TOP)]
        for page in [*pages, TOP / "README.md", *TOP.glob("docs/**/*.md")]:
            text = page.read_text(encoding="utf-8")
            links = re.findall(r"\]\(([^)#]+)(?:#[^)]*)?\)", text)
            targets = [link for link in links if not link.startswith("https://")]
            missing = [link for link in targets if not (page.parent / link).exists()]
            with self.subTest(page.relative_to(TOP)):
                self.assertEqual(missing, [])


class Printing(unittest.TestCase):
    def setUp(self) -> None:
        folder = tempfile.TemporaryDirectory()
        self.addCleanup(folder.cleanup)
        self.top = Path(folder.name)
        for path, text in FILES.items():
            (self.top / path).parent.mkdir(parents=True, exist_ok=True)
            (self.top / path).write_text(text, encoding="utf-8")

    def test_tables(self) -> None:
        self.assertEqual("\n".join(map_tables.levels_table(self.top)), LEVELS)
        self.assertEqual("\n".join(map_tables.owners_table(self.top)), OWNERS)

    def test_page_is_written_anew(self) -> None:
        page = f"a\n{BEGINS[0]}\nold\n{ENDS[0]}\nb\n{BEGINS[1]}\n{ENDS[1]}\nc\n"
        written = with_tables(page, self.top)
        self.assertEqual(
            written,
            f"a\n{BEGINS[0]}\n\n{LEVELS}\n\n{ENDS[0]}\n"
            f"b\n{BEGINS[1]}\n\n{OWNERS}\n\n{ENDS[1]}\nc\n",
        )
        self.assertEqual(with_tables(written, self.top), written)

    def test_page_without_a_mark(self) -> None:
        for page in ("a\n", f"{BEGINS[0]}\n", f"{BEGINS[0]}\n{ENDS[0]}\n"):
            with self.subTest(page), self.assertRaisesRegex(Refusal, "has no lines"):
                with_tables(page, self.top)

    def test_circle(self) -> None:
        for uses in ({"a": ["a"]}, {"a": ["b"], "b": ["c"], "c": ["a"]}):
            with self.subTest(uses), self.assertRaisesRegex(Refusal, "uses itself"):
                levels_of(uses)

    def test_chain(self) -> None:
        """Of chains of one length, one that ends with the last crate; libraries don't count."""
        for uses, chain in (
            ({}, []),
            ({"a": ["x"]}, ["a"]),
            ({"a": [], "b": ["a"], "c": ["b", "a"], "d": ["b"]}, ["a", "b", "d"]),
        ):
            with self.subTest(uses):
                self.assertEqual(longest_chain(uses), chain)

    def test_sentences(self) -> None:
        path = self.top / "file"
        for text, sentence in (
            ("-- One. Two.\n", "One"),
            ("-- In `a.b` and 1.2 it is. So.\n", "In `a.b` and 1.2 it is"),
            ("-- Is it? So.\n", "Is it?"),
            ("code\n    -- not this\n-- but\n-- this\n", "but this"),
            ("-- without\n--\n-- an end.\n", "without"),
        ):
            with self.subTest(text):
                path.write_text(text, encoding="utf-8")
                self.assertEqual(first_sentence(path, "--"), sentence)


if __name__ == "__main__":
    unittest.main()
