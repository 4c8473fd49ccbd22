#!/usr/bin/env python3
"""Plants the bugs of tools/planted/CRATE.txt one at a time in a copy of the repository, and prints where the check refused each.

    tools/planted.py [CRATE...]

A bug is a change of one line that keeps the shape of the code and turns its meaning. Where one is still proved, the contract
is too weak. Run `rt all check` first: the copy takes over what is proved. docs/planted-bugs.md has the outcome."""

import pathlib
import re
import shutil
import subprocess
import sys
import tempfile

ROOT = pathlib.Path(__file__).parent.parent
PLANTED = ROOT / "tools" / "planted"


def bugs_of(crate):
    """The bugs of a crate: what each is in words, and its edit."""
    bugs = []
    for block in (PLANTED / f"{crate}.txt").read_text().strip().split("\n\n"):
        words, edit = block.split("\n", 1)
        bugs.append((words.removeprefix("bug: "), edit + "\n"))
    return bugs


def outcome_of(log, label):
    """Where the check refused the bug, or what else came of it."""
    line = next((line for line in log.splitlines() if f"/{label}.edit: " in line), "not tried")
    if ": refused" not in line:
        return line.split(f"/{label}.edit: ", 1)[-1][:80]
    place = re.search(r"((?:src|proofs)/[^ :]*)", line)
    goal = re.search(r"\(`([^`]*)`\)", line) or re.search(r"`([^`]*)`", line)
    told = (f"`{place.group(1)}`" if place else "refused") + (f", `{goal.group(1)}`" if goal else "")
    unnamed = "only because a proof file names" in line or re.search(r": `goal\.[^`]*`: module", line)
    return told + (" (only a name that a proof cites is gone)" if unnamed else "")


def plant(crate, copy):
    folder = copy / "crates" / crate / "must-fail"
    folder.mkdir()
    bugs = bugs_of(crate)
    for number, (_, edit) in enumerate(bugs):
        (folder / f"bug{number:02}.edit").write_text(edit)
    log = subprocess.run(["rt", "must-fail", crate], cwd=copy, capture_output=True, text=True).stdout
    for number, (words, _) in enumerate(bugs):
        print(f"| `{crate}` | {words} | {outcome_of(log, f'bug{number:02}')} |", flush=True)
    shutil.rmtree(folder)


def main():
    crates = sys.argv[1:] or sorted(path.stem for path in PLANTED.glob("*.txt"))
    with tempfile.TemporaryDirectory() as work:
        copy = pathlib.Path(work) / "repo"
        copy.mkdir()
        shutil.copy(ROOT / "crates.txt", copy)
        # No edits but the planted ones are tried. What was proved here lies in the crates' folders out/.
        shutil.copytree(ROOT / "crates", copy / "crates", ignore=shutil.ignore_patterns("must-fail"))
        for crate in crates:
            plant(crate, copy)


if __name__ == "__main__":
    main()
