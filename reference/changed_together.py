#!/usr/bin/env python3
"""Changes a definition of the platform file and the code that meets it alike, and looks whether the laws refuse it.

A proof that the code meets its definition says nothing where both are wrong in the same way. The crate
`platform_laws` says what a file stands for a second time, by how it is written. Each change below is made in a copy
of the repository outside it; `rt check` of `platform_laws` proves the crates below it first. A change is refused
where these still prove, as definition and code agree, and `platform_laws` does not.

    reference/changed_together.py [--keep] [NAME ..]

The changes run one after the other, each for some minutes. The last line is `N refused, M not`; the exit status is 0
only where all are refused. No part of the gate runs this.
"""

import argparse
import shutil
import subprocess
import sys
import tempfile
from dataclasses import dataclass
from pathlib import Path

ROOT = Path(__file__).resolve().parent.parent
LAWS = "platform_laws"
DOCUMENT, FILE = "crates/platform_document", "crates/platform_file"


@dataclass
class Edit:
    """A text that stands once in a file, and what takes its place."""

    file: str
    old: str
    new: str


def swapped_words(definition, enum, first, second):
    """Two words of a list that change their meanings, in the definition and in the code."""
    names = [word.capitalize() for word in (first, second)]
    pairs = [(first, names[0], names[1]), (second, names[1], names[0])]
    edits = []
    for word, own, other in pairs:
        edits.append(Edit(f"{DOCUMENT}/specs/Words.antt", f'(codes "{word}") then Some {definition}{own}',
                          f'(codes "{word}") then Some {definition}{other}'))
        edits.append(Edit(f"{DOCUMENT}/src/word.rt", f'"{word}" => Some({enum}::{own})', f'"{word}" => Some({enum}::{other})'))
    return edits


# the first two bytes of a GUID change places
SWAP = "use Rattle.std.specs.Prelude.{swap}"
SWAPPED_BYTES = """        Ok(guid) => {
            let mut bytes = guid.into_bytes();
            bytes.swap(0, 1);
            Some(HandlerType::Typed(u128::from_be_bytes(bytes)))
        }
"""

CHANGES = {
    "looks-swapped": [
        Edit(f"{FILE}/specs/Head.antt", "record { t1 = t1; t2 = t2 }", "record { t1 = t2; t2 = t1 }"),
        Edit(f"{FILE}/src/head.rt", "Ok(Polls { t1, t2 })", "Ok(Polls { t1: t2, t2: t1 })"),
    ],
    "delayed-and-blocked": swapped_words("", "Arrival", "delayed", "blocked"),
    "get-and-put": swapped_words("", "Act", "get", "put"),
    "start-and-launch": swapped_words("op.", "OperationWord", "start", "launch"),
    "tile-and-code": [
        Edit(f"{FILE}/specs/Area.antt", "tile = tile; code = code", "tile = code; code = tile"),
        Edit(f"{FILE}/src/area.rt", "        tile,\n        code,\n", "        tile: code,\n        code: tile,\n"),
    ],
    "guid-bytes": [
        Edit(f"{DOCUMENT}/specs/Words.antt", "Typed (from_be_bytes w128 bytes)", "Typed (from_be_bytes w128 (swap bytes 0 1))"),
        Edit(f"{DOCUMENT}/specs/Words.antt", "use Rattle.uuid.specs.Text.{parsed}", f"use Rattle.uuid.specs.Text.{{parsed}}\n{SWAP}"),
        Edit(f"{DOCUMENT}/src/word.rt", "        Ok(guid) => Some(HandlerType::Typed(guid.as_u128())),\n", SWAPPED_BYTES),
        Edit(f"{DOCUMENT}/proofs/word/guid_list/Answers.antt", "Typed (from_be_bytes w128 bytes)", "Typed (from_be_bytes w128 (swap bytes 0 1))"),
        Edit(f"{DOCUMENT}/proofs/word/guid_list/Answers.antt", "use Rattle.uuid.specs.Text.{parsed}", f"use Rattle.uuid.specs.Text.{{parsed}}\n{SWAP}"),
    ],
    "flag-and-word": [
        Edit(f"{DOCUMENT}/specs/Reading.antt", "ok_or (as_bool value) (WrongType path)", "ok_or (as_bool value) (Word path)"),
        Edit(f"{DOCUMENT}/src/document.rt", "Some(flag) => Ok(flag),\n        None => Err(WalkFault::WrongType(path)),", "Some(flag) => Ok(flag),\n        None => Err(WalkFault::Word(path)),"),
    ],
    "size-and-base": [
        Edit(f"{FILE}/specs/Area.antt", "Err (Range (path_to Smram key.Size)", "Err (Range (path_to Smram key.Base)"),
        Edit(f"{FILE}/src/area.rt", "WalkFault::Range(path_to(TablePlace::Smram, Key::Size)", "WalkFault::Range(path_to(TablePlace::Smram, Key::Base)"),
    ],
    "port-and-length": [
        Edit(f"{FILE}/specs/Causes.antt", "number_at (path_to place key.Port)", "number_at (path_to place key.Length)"),
        Edit(f"{FILE}/specs/Causes.antt", "length_at (path_to place key.Length)", "length_at (path_to place key.Port)"),
        Edit(f"{FILE}/src/causes.rt", "number_at(table, path_to(place, Key::Port)", "number_at(table, path_to(place, Key::Length)"),
        Edit(f"{FILE}/src/causes.rt", "length_at(table, path_to(place, Key::Length))", "length_at(table, path_to(place, Key::Port))"),
    ],
}


def needed(crates_text, name):
    """The crate and those of the repository below it."""
    below = {}
    for line in crates_text.splitlines():
        line = line.split("#")[0].strip()
        if line:
            head, _, deps = line.partition(":")
            below[head.split()[0]] = deps.split()
    found, todo = [], [name]
    while todo:
        crate = todo.pop()
        if crate in below and crate not in found:
            found.append(crate)
            todo += below[crate]
    return {crate: below[crate] for crate in found}


def copy_to(place):
    """The crates that the laws stand on, with what earlier checks kept of them."""
    crates = needed((ROOT / "crates.txt").read_text(), LAWS)
    for crate in crates:
        shutil.copytree(ROOT / "crates" / crate, place / "crates" / crate, symlinks=True)
    (place / "crates.txt").write_text("".join(f"{crate}: {' '.join(deps)}\n" for crate, deps in crates.items()))
    shutil.copy(ROOT / "HANDLES", place / "HANDLES")


def apply(place, edits):
    """Makes the edits, each of whose old texts must stand once."""
    for edit in edits:
        path = place / edit.file
        text = path.read_text()
        if text.count(edit.old) != 1:
            sys.exit(f"{edit.file}: {edit.old!r} stands {text.count(edit.old)} times")
        path.write_text(text.replace(edit.old, edit.new))


def verdict(log):
    """Whether the crates below proved and the laws did not."""
    below_fails = [line for line in log.splitlines() if line.startswith("fn ") and "no proof" in line and not line.startswith(f"fn {LAWS}::")]
    if below_fails:
        return "not both agree: " + below_fails[0][:100]
    if f"fn {LAWS}::laws::platform_laws: proved" in log:
        return "not refused"
    errors = [line for line in log.splitlines() if ": error: `" in line and line.startswith("./proofs/")]
    return f"refused: {errors[0][:110]}" if errors else "not refused: no error in the laws' proofs"


def main():
    parser = argparse.ArgumentParser(description=__doc__, formatter_class=argparse.RawDescriptionHelpFormatter)
    parser.add_argument("names", nargs="*", metavar="NAME", help=f"of {', '.join(CHANGES)}")
    parser.add_argument("--keep", action="store_true", help="keep the copies")
    arguments = parser.parse_args()
    names = arguments.names or list(CHANGES)
    refused = 0
    for name in names:
        place = Path(tempfile.mkdtemp(prefix=f"changed-{name}-"))
        try:
            copy_to(place)
            apply(place, CHANGES[name])
            run = subprocess.run(["rt", "check"], cwd=place / "crates" / LAWS, text=True, stdout=subprocess.PIPE, stderr=subprocess.STDOUT)
            said = verdict(run.stdout)
            refused += said.startswith("refused")
            print(f"{name}: {said}", flush=True)
        finally:
            if not arguments.keep:
                shutil.rmtree(place)
    print(f"{refused} refused, {len(names) - refused} not")
    return refused != len(names)


if __name__ == "__main__":
    sys.exit(main())
