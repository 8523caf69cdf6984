#!/usr/bin/env python3
"""Tries all must-fail edits, the parked ones too: the prover must refuse each.

usage: tools/parked_edits.py [CRATE..]      (default: every crate with edits)

The gate tries crates/NAME/must-fail/*.edit. An edit that says less, or that costs more than it says, is parked beside
them as NAME.edit.md. This makes a clone of what is committed in a folder of its own, gives the parked edits their name
back there, and runs `rt ci` for these crates, so what the gate has proved is kept and the edits are tried beside each
other. It is to be run when contracts of a crate change, and before a release; behind a gate that passed it takes some ten
seconds of a processor an edit. It ends with 0 where each was applied and refused, and the folder is removed; else with 1,
and the folder stays, with what `rt ci` printed in `log`.
"""
import pathlib
import re
import shutil
import subprocess
import sys
import tempfile

TOP = pathlib.Path(__file__).resolve().parent.parent
REFUSED = re.compile(r"^rt: must-fail (\S+)/(\S+\.edit): refused, as it must be", re.MULTILINE)


def name_of(edit):
    return edit.parts[-3], edit.name


def main():
    names = sys.argv[1:]
    folder = pathlib.Path(tempfile.mkdtemp(prefix="parked-"))
    copy = folder / "repository"
    subprocess.run(["git", "clone", "-q", str(TOP), str(copy)], check=True)
    parked = [it for it in sorted(copy.glob("crates/*/must-fail/*.edit.md")) if not names or it.parts[-3] in names]
    for it in parked:
        it.rename(it.with_suffix(""))
    edits = {name_of(it) for it in copy.glob("crates/*/must-fail/*.edit")}
    crates = sorted({crate for crate, _ in edits if not names or crate in names})
    edits = {edit for edit in edits if edit[0] in crates}
    log = folder / "log"
    with open(log, "w") as output:
        subprocess.run(["rt", "ci", *crates], cwd=copy, stdout=output, stderr=output, stdin=subprocess.DEVNULL)
    left = sorted(edits - set(REFUSED.findall(log.read_text())))
    for crate, edit in left:
        print(f"not refused: {crate}/{edit}")
    if left:
        print(f"{len(left)} of {len(edits)} edits were not refused, or could not be applied: see {folder}")
        return 1
    shutil.rmtree(folder)
    print(f"{len(edits)} edits of {len(crates)} crates refused, {len(parked)} of them parked")
    return 0


if __name__ == "__main__":
    sys.exit(main())
