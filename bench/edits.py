#!/usr/bin/env python3
"""Tries planted bugs that the gate leaves out: edits.py [NAME ..], at the top of a checkout, by hand.

`edits/NAME/` has edits of the crate NAME of the same form as `crates/NAME/must-fail/`, which `rt ci` tries each time. Here they are put there
for one run of `rt must-fail NAME`, which proves what the crate stands on where that isn't built. Without a NAME all crates with such edits are
tried, one after the other; that takes hours. The status is 0 where each edit was refused.
"""
import pathlib
import shutil
import subprocess
import sys

TOP = pathlib.Path(__file__).resolve().parent.parent


def tries(name):
    folder = TOP / "crates" / name / "must-fail"
    made = not folder.exists()
    folder.mkdir(exist_ok=True)
    put = []
    try:
        for edit in sorted((TOP / "edits" / name).glob("*.edit")):
            to = folder / edit.name
            if to.exists():
                sys.exit(f"{edit} stands in {folder} too")
            put.append(to)
            shutil.copyfile(edit, to)
        return subprocess.run(["rt", "must-fail", name], cwd=TOP).returncode == 0
    finally:
        for to in put:
            to.unlink(missing_ok=True)
        if made:
            folder.rmdir()


def main():
    names = sys.argv[1:] or sorted(it.name for it in (TOP / "edits").iterdir())
    failed = [name for name in names if not tries(name)]
    if failed:
        sys.exit(f"not refused, or not tried: {' '.join(failed)}")


if __name__ == "__main__":
    main()
