#!/usr/bin/env python3
"""function_times.py: which functions and lemmas of a crate take the longest to prove.

usage: function_times.py [--most N] CRATE   prints the N dearest (default: 25) by what the last `rt check` of the folder CRATE kept

A check writes each part of a proof as soon as it is checked. So the seconds between one file and the one before it are those of
the later one, where the check had one job (`rt check --jobs 1`) and proved all of these functions in one run: begin with no
out/incremental, or read the figures of what was proved anew alone. A pause of the check counts for whatever came behind it.
"""
import argparse
import collections
import pathlib
import re
import sys

# The files that a function has, by the last part of their names.
PARTS = "Answers Code Given Goals Invariants Key Kinds Layout Measure Met Named Proof Reads Statement Tie View"
ENDS = re.compile(r"(\.Lts(-[^.]*(\..*)?)?|\.Kinds-.*|\.(" + PARTS.replace(" ", "|") + r"))+$")


def proved(name):
    """What a checked file is of: a function, or a file of lemmas or definitions. None, where it is no such file."""
    found = re.fullmatch(r"Rattle-\w+?-(proofs|specs)\.(.+?)(\.decls)?\.oantt", name)
    if not found or found[3]:
        return None
    of = ENDS.sub("", found[2])
    return f"specs: {of}" if found[1] == "specs" else of


def seconds(files):
    """The seconds of each, given the moments at which files were written, by their names."""
    told, before = collections.Counter(), None
    for moment, name in sorted(files):
        of = proved(name)
        if of is None:
            continue
        if before is not None:
            told[of] += moment - before
        before = moment
    return told


def files_of(crate):
    kept = pathlib.Path(crate, "out", "incremental")
    return [(it.stat().st_mtime, it.name) for it in kept.rglob("*.oantt")]


def main():
    words = argparse.ArgumentParser(description=__doc__, formatter_class=argparse.RawDescriptionHelpFormatter)
    words.add_argument("--most", type=int, default=25, metavar="N")
    words.add_argument("crate")
    given = words.parse_args()
    told = seconds(files_of(given.crate))
    if not told:
        print(f"function_times.py: no check of {given.crate} has kept anything: run rt check --jobs 1 there", file=sys.stderr)
        return 1
    print(f"{sum(told.values()):8.1f} s in all, of which the dearest:")
    for of, spent in told.most_common(given.most):
        print(f"{spent:8.1f} {of}")
    return 0


if __name__ == "__main__":
    sys.exit(main())
