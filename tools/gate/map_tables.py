"""Prints the tables of docs/ARCHITECTURE.md: the crates' levels, and who owns which definition.

A crate's level is one more than that of the highest crate that it uses. What a crate is for is the
first sentence of its root file, and what a file of definitions owns is that of its first comment.
"""

from __future__ import annotations

import argparse
import re
from collections.abc import Iterator
from pathlib import Path

from command_line import Refusal, command_line, run
from gate.repository import TOP, crates

PAGE = "docs/ARCHITECTURE.md"
NO_SENTENCE = "(its file doesn't say)"

EXAMPLES = """\
examples:
  python3 tools map_tables            prints both tables
  python3 tools map_tables levels     prints one
  python3 tools map_tables --write    puts both into docs/ARCHITECTURE.md
"""

Uses = dict[str, list[str]]
"""The crates by their names, lowest first, each with the libraries that it uses."""


def levels_of(uses: Uses) -> dict[str, int]:
    """The level of each crate; 1 where it uses none of the others."""
    levels: dict[str, int] = {}

    def level(name: str, above: tuple[str, ...]) -> int:
        if name in above:
            raise Refusal(f"crates.txt: {name} uses itself, by {', '.join(above)}")
        if name not in levels:
            below = [level(used, (*above, name)) for used in uses[name] if used in uses]
            levels[name] = 1 + max(below, default=0)
        return levels[name]

    return {name: level(name, ()) for name in uses}


def longest_chain(uses: Uses) -> list[str]:
    """As many crates as there are levels, of which each uses the one before."""
    levels = levels_of(uses)
    chain = [max(reversed(levels), key=lambda name: levels[name])] if levels else []
    while chain and levels[chain[0]] > 1:
        below = levels[chain[0]] - 1
        chain.insert(0, next(used for used in uses[chain[0]] if levels.get(used) == below))
    return chain


def first_sentence(path: Path, mark: str) -> str:
    """The first sentence of the first comment, whose lines begin with a mark, without its end."""
    text = path.read_text(encoding="utf-8")
    comment = re.search(rf"^(?:{mark}[^\n]*\n)+", text, re.MULTILINE)
    if comment is None:
        return NO_SENTENCE
    lines = [line.removeprefix(mark).strip() for line in comment[0].splitlines()]
    # A paragraph ends with an empty line, where no sentence does before.
    paragraph = " ".join(lines).split("  ")[0]
    sentence = re.split(r"(?<=[.?!])\s", paragraph)[0].removesuffix(".")
    return sentence.replace("|", r"\|")


def purpose_of(crate: Path) -> str:
    """What a crate is for."""
    roots = [crate / "src" / name for name in ("lib.rt", "main.rt")]
    return next((first_sentence(root, "//!") for root in roots if root.exists()), NO_SENTENCE)


def linked(top: Path, name: str) -> str:
    """A crate's name, as a link to its page where it has one."""
    page = f"crates/{name}/README.md"
    return f"[`{name}`](../{page})" if (top / page).exists() else f"`{name}`"


def levels_table(top: Path) -> Iterator[str]:
    """The crates by their levels, and the longest chain of them."""
    uses = crates(top)
    levels = levels_of(uses)
    yield "| Level | Crate | What it is for | Uses |"
    yield "|---|---|---|---|"
    for name in sorted(uses, key=lambda name: levels[name]):
        purpose = purpose_of(top / "crates" / name)
        yield f"| {levels[name]} | {linked(top, name)} | {purpose} | {', '.join(uses[name])} |"
    chain = longest_chain(uses)
    yield ""
    yield f"The longest chain has {len(chain)} crates: {', '.join(f'`{name}`' for name in chain)}."


def owners_table(top: Path) -> Iterator[str]:
    """The files of definitions, by their crates, and what each owns."""
    yield "| Crate | File of `specs/` | What it owns |"
    yield "|---|---|---|"
    for name in crates(top):
        shown = f"`{name}`"
        for path in sorted((top / "crates" / name / "specs").glob("*.antt")):
            if path.stem != "Lib":
                yield f"| {shown} | `{path.stem}` | {first_sentence(path, '--')} |"
                shown = ""


TABLES = {"levels": levels_table, "owners": owners_table}


def marks_of(table: str) -> tuple[str, str]:
    """The lines of the page between which a table stands."""
    return f"<!-- {table}: printed by python3 tools map_tables -->", f"<!-- end of {table} -->"


def with_tables(page: str, top: Path) -> str:
    """The page with its tables printed anew."""
    for name, table in TABLES.items():
        begin, end = marks_of(name)
        before, found, rest = page.partition(begin)
        _, ended, after = rest.partition(end)
        if not found or not ended:
            raise Refusal(f"{PAGE} has no lines {begin!r} and {end!r}")
        text = "\n".join(table(top))
        page = f"{before}{begin}\n\n{text}\n\n{end}{after}"
    return page


def act(options: argparse.Namespace) -> int:
    """Prints tables, or puts them into the page."""
    if options.write:
        page = TOP / PAGE
        page.write_text(with_tables(page.read_text(encoding="utf-8"), TOP), encoding="utf-8")
        return 0
    names = [options.table] if options.table else list(TABLES)
    print("\n\n".join("\n".join(TABLES[name](TOP)) for name in names))
    return 0


def main(words: list[str]) -> int:
    """The exit status: 0, or 2 with one line on standard error."""
    line = command_line("map_tables", __doc__, EXAMPLES)
    line.add_argument("table", nargs="?", choices=list(TABLES), help="the one that is printed")
    line.add_argument("--write", action="store_true", help=f"put both into {PAGE}")
    return run("map_tables", line, act, words)
