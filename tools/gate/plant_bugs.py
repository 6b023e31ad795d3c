"""Plants the bugs that docs/planted-bugs/ lists, and tells whether the prover refuses each.

A crate's list is docs/planted-bugs/CRATE.txt. A bug has these lines, and an empty line ends it:

  bug: what is wrong, in plain words
  call: the public call that it breaks
  clause: the clause of its contract, or the definition, that refuses the bug
  strengthened: what was said more strictly so that it is refused; only where that was so
  edit: the name of a kept wrong body, crates/CRATE/must-fail/NAME.edit

In place of the last line it may have the edit itself, in one or more such groups:

  file: a file of the crate
  old: a line's text that stands there once
  new: what is to stand in its place
"""

from __future__ import annotations

import argparse
import re
import subprocess
from collections.abc import Iterator
from dataclasses import dataclass
from pathlib import Path

from command_line import Refusal, command_line, run
from gate.repository import TOP, crates

LISTS = "docs/planted-bugs"
PREFIX = "planted_"
"""How the names of edits begin that stand in must-fail/ while they are tried."""

EXAMPLES = """\
examples:
  python3 tools plant_bugs table                prints all lists as tables
  python3 tools plant_bugs table board          prints the table of one crate
  python3 tools plant_bugs try board cuts       plants the bugs of two crates that aren't kept
  python3 tools plant_bugs together board       the same in few checks: bugs of different
                                                functions at once
"""


class ListError(Refusal):
    """What is wrong with a list, in one line."""


@dataclass(frozen=True)
class Change:
    """A text of one file, and what takes its place."""

    file: str
    old: str
    new: str


@dataclass(frozen=True)
class Bug:
    """One planted bug: by its kept edit, or by its changes."""

    text: str
    call: str
    clause: str
    strengthened: str = ""
    edit: str = ""
    changes: tuple[Change, ...] = ()


def lines_of(text: str) -> Iterator[tuple[str, str]]:
    """The key and the value of each line of a bug."""
    for line in text.splitlines():
        key, colon, value = line.partition(": ")
        if not colon:
            raise ListError(f"no key: {line!r}")
        yield key, value


def changes_of(lines: list[tuple[str, str]]) -> Iterator[Change]:
    """The groups of `file`, `old` and `new`."""
    for place in range(0, len(lines), 3):
        group = lines[place : place + 3]
        if [key for key, _ in group] != ["file", "old", "new"]:
            raise ListError(f"no file, old and new: {group}")
        change = Change(*(value for _, value in group))
        if change.old == change.new:
            raise ListError(f"changes nothing: {change.old!r}")
        yield change


def bug_of(text: str) -> Bug:
    """A bug from its lines."""
    lines = list(lines_of(text))
    changing = [line for line in lines if line[0] in ("file", "old", "new")]
    said = dict(line for line in lines if line not in changing)
    if len(said) + len(changing) != len(lines):
        raise ListError(f"a key comes twice: {text!r}")
    missing = {"bug", "call", "clause"} - said.keys()
    unknown = said.keys() - {"bug", "call", "clause", "strengthened", "edit"}
    if missing or unknown:
        raise ListError(f"missing {sorted(missing)}, unknown {sorted(unknown)}: {text!r}")
    if ("edit" in said) == bool(changing):
        raise ListError(f"either an edit or its changes: {text!r}")
    return Bug(
        said["bug"],
        said["call"],
        said["clause"],
        said.get("strengthened", ""),
        said.get("edit", ""),
        tuple(changes_of(changing)),
    )


def bugs_of(path: Path) -> list[Bug]:
    """The bugs of a list, in its order."""
    try:
        blocks = re.split(r"\n\n+", path.read_text(encoding="utf-8").strip("\n"))
        return [bug_of(block) for block in blocks]
    except (OSError, ListError) as fault:
        raise ListError(f"{path.name}: {fault}") from fault


def listed(top: Path) -> list[str]:
    """The crates that have a list, lowest first."""
    return [name for name in crates(top) if (top / LISTS / f"{name}.txt").exists()]


def row_of(bug: Bug) -> str:
    """A row of a crate's table."""
    kept = f"`{bug.edit}`" if bug.edit else ""
    clause = f"{bug.clause}; {bug.strengthened}" if bug.strengthened else bug.clause
    return f"| {bug.text} | `{bug.call}` | {clause} | {kept} |"


def table_of(top: Path, names: list[str]) -> str:
    """The tables of crates."""
    lines = []
    for name in names:
        bugs = bugs_of(top / LISTS / f"{name}.txt")
        lines += [
            f"## `{name}`: {len(bugs)}",
            "",
            "| Bug | Call | Refused by | Kept as |",
            "|---|---|---|---|",
            *map(row_of, bugs),
            "",
        ]
    return "\n".join(lines)


def edit_text(bug: Bug) -> str:
    """The bug as a file of must-fail/."""
    return "".join(
        f"file: {change.file}\nold: {change.old}\nnew: {change.new}\n" for change in bug.changes
    )


def verdicts_of(output: str, bugs: dict[str, Bug]) -> dict[str, str]:
    """What `rt must-fail` said of each planted bug, by the name of its edit."""
    said = re.findall(rf"/({PREFIX}\d+)\.edit: (.*)", output)
    return {name: verdict for name, verdict in said if name in bugs}


def try_bugs(top: Path, name: str) -> bool:
    """Plants a crate's bugs that no kept edit has, one at a time; whether each was refused."""
    planted = [bug for bug in bugs_of(top / LISTS / f"{name}.txt") if bug.changes]
    named = {f"{PREFIX}{number:02}": bug for number, bug in enumerate(planted, 1)}
    folder = top / "crates" / name / "must-fail"
    folder.mkdir(exist_ok=True)
    try:
        for stem, bug in named.items():
            (folder / f"{stem}.edit").write_text(edit_text(bug))
        output = said_by(["rt", "must-fail", name], top)
    finally:
        for stem in named:
            (folder / f"{stem}.edit").unlink(missing_ok=True)
    verdicts = verdicts_of(output, named)
    for stem, bug in named.items():
        print(f"{name}: {bug.text}: {verdicts.get(stem, 'not tried')}")
    if len(verdicts) < len(named):
        print(output[-2000:])
    return all(verdicts.get(stem, "").startswith("refused") for stem in named)


def said_by(command: list[str], folder: Path) -> str:
    """What a command prints."""
    run = subprocess.run(
        command,
        cwd=folder,
        stdout=subprocess.PIPE,
        stderr=subprocess.STDOUT,
        text=True,
        check=False,
    )
    return run.stdout


def function_at(text: str, place: int) -> str:
    """The name of the function that a place of a file stands in; empty where it is in none."""
    line = text[text.rfind("\n", 0, place) + 1 :]
    if re.match(r"(pub(\(crate\))? )?const \w+: ", line):
        return ""
    names = re.findall(r"^\s*(?:pub(?:\(crate\))? )?fn (\w+)", text[:place], re.MULTILINE)
    return names[-1] if names else ""


def functions_of(crate: Path, bug: Bug) -> set[tuple[str, str]]:
    """The functions that a bug changes, each with its file."""
    found = set()
    for change in bug.changes:
        text = (crate / change.file).read_text(encoding="utf-8")
        found.add((change.file, function_at(text, text.find(change.old))))
    return found


def batches_of(crate: Path, bugs: list[Bug]) -> Iterator[list[Bug]]:
    """The bugs in groups of which no two change one function; those of constants are alone."""
    left = bugs
    while left:
        batch: list[Bug] = []
        taken: set[tuple[str, str]] = set()
        later = []
        for bug in left:
            functions = functions_of(crate, bug)
            alone = any(not name for _, name in functions)
            if not taken or not (alone or taken & functions or ("", "") in taken):
                batch.append(bug)
                taken |= functions | ({("", "")} if alone else set())
            else:
                later.append(bug)
        yield batch
        left = later


def verdict_in(output: str, crate: str, functions: set[tuple[str, str]]) -> str:
    """What a check said of the functions: the first that has no proof of its own, or else all."""
    lines = []
    for file, name in sorted(functions):
        module = file.removeprefix("src/").removesuffix(".rt").replace("/", "::")
        path = rf"{crate}::(?:{module}::)?\S*?{name}" if name else rf"{crate}::\S+"
        lines += re.findall(rf"^fn {path}: (.*)$", output, re.MULTILINE)
    open_ones = [line for line in lines if line not in ("no holes", "proved")]
    own = [line for line in open_ones if not re.match("(no proof:|not proved;) it calls", line)]
    if own:
        return f"refused: {own[0]}"
    return f"not told: {open_ones[0]}" if open_ones else "NOT REFUSED"


def verdicts_together(crate: Path, batch: list[Bug]) -> dict[Bug, str]:
    """What one check says of a crate with these bugs, of each."""
    functions = {bug: functions_of(crate, bug) for bug in batch}
    changes = [change for bug in batch for change in bug.changes]
    paths = {crate / change.file for change in changes}
    before = {path: path.read_text(encoding="utf-8") for path in paths}
    try:
        for change in changes:
            path = crate / change.file
            text = path.read_text(encoding="utf-8")
            path.write_text(text.replace(change.old, change.new), encoding="utf-8")
        output = said_by(["rt", "check", "--allow-holes"], crate)
    finally:
        for path, text in before.items():
            path.write_text(text, encoding="utf-8")
    if not re.search("^fn ", output, re.MULTILINE):
        print(output[-2000:])
        return dict.fromkeys(batch, "not told: the check ended early")
    return {bug: verdict_in(output, crate.name, functions[bug]) for bug in batch}


def plant_together(top: Path, name: str) -> bool:
    """Plants a crate's bugs of different functions at once; whether each was refused.

    One of which that tells nothing, as where its function calls another with a bug, is then
    planted alone.
    """
    crate = top / "crates" / name
    planted = [bug for bug in bugs_of(top / LISTS / f"{name}.txt") if bug.changes]
    refused = []
    for batch in batches_of(crate, planted):
        for bug, verdict in verdicts_together(crate, batch).items():
            if verdict.startswith("not told") and len(batch) > 1:
                verdict = verdicts_together(crate, [bug])[bug]
            refused.append(verdict.startswith("refused"))
            print(f"{name}: {bug.text}: {verdict}", flush=True)
    return all(refused)


def act(options: argparse.Namespace) -> int:
    """Prints tables, or plants bugs; 1 where one was not refused."""
    if options.command == "table":
        print(table_of(TOP, options.crate or listed(TOP)), end="")
        return 0
    plant = try_bugs if options.command == "try" else plant_together
    return 0 if all([plant(TOP, name) for name in options.crate]) else 1


def main(words: list[str]) -> int:
    """The exit status: 0, or 1 where a bug was not refused, or 2 where a list is wrong."""
    line = command_line("plant_bugs", __doc__, EXAMPLES)
    commands = line.add_subparsers(dest="command", required=True)
    for command, count, what in (
        ("table", "*", "prints the lists as tables, by default all"),
        ("try", "+", "plants bugs, one at a time"),
        ("together", "+", "plants bugs of different functions at once"),
    ):
        commands.add_parser(command, help=what).add_argument("crate", nargs=count)
    return run("plant_bugs", line, act, words)
