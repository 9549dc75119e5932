#!/usr/bin/env python3
"""gate_times.py: what the gate costs, crate by crate, in processor minutes.

usage: gate_times.py [--save FILE] [TOP]   runs `rt ci` at TOP (default: here) and prints the table
       gate_times.py --beside PID [TOP]    looks at a gate that runs below the process PID, until it ends or SIGTERM comes,
                                           and prints the table of what it saw (once a second, for use in .ci/run)
       gate_times.py --show FILE [FILE]    prints the table of a kept run; of two, the earlier first, both and what is left

It looks at the checks that `rt ci` has running, four times a second, and adds up the processor time of each:
the first check of a crate (with the builds of a program), the check with tests, and each edit by its name. So the
figures don't depend on how many checks ran side by side, but they do on the machine. Nothing else should run.
Where the kit's `rt ci` keeps what it proved, it is run as `rt ci --anew`; where it always proves from nothing, plainly.
"""
import argparse
import collections
import glob
import json
import os
import pathlib
import re
import resource
import signal
import subprocess
import sys
import threading
import time

TICK = os.sysconf("SC_CLK_TCK")


def running():
    """Each process by its number: its parent, its processor seconds with those of its ended children, its words."""
    found = {}
    for folder in glob.glob("/proc/[0-9]*"):
        try:
            fields = pathlib.Path(folder, "stat").read_text().rpartition(")")[2].split()
            words = pathlib.Path(folder, "cmdline").read_bytes().decode(errors="replace").split("\0")
        except OSError:
            continue
        found[int(folder[6:])] = int(fields[1]), sum(map(int, fields[11:15])) / TICK, words
    return found


def is_check(words):
    return len(words) > 3 and words[0].endswith("/rattle") and words[1] in ("build", "check") and "--crate-name" in words


def edit_in(room, crate):
    """The edit of the crate with which the texts in this folder were made."""
    for edit in sorted(crate.glob("must-fail/*.edit")):
        path, texts = None, {}
        for line in edit.read_text().split("\n"):
            word, _, rest = line.partition(": ")
            if word == "file":
                path = rest.strip()
                texts.setdefault(path, (crate / path).read_text())
            elif word == "old":
                old = rest
            elif line.startswith("new:"):
                texts[path] = texts[path].replace(old, line[4:].removeprefix(" "))
        try:
            if all((room / path).read_text() == text for path, text in texts.items()):
                return edit.stem
        except OSError:
            return None
    return None


def part_of(pid, words, top):
    """The crate that this process checks, and which part of the gate that is."""
    name = words[words.index("--crate-name") + 1]
    try:
        room = pathlib.Path(os.readlink(f"/proc/{pid}/cwd"))
    except OSError:
        return None
    if room.name.startswith("rt-edit-"):
        edit = edit_in(room, top / "crates" / name)
        return (name, "edit " + edit) if edit else (name, "edits, the crate itself")
    return name, "tests" if "--test" in words else "first"


class Watch(threading.Thread):
    """Looks at the checks below one process until it is told to stop, and hands itself over once a minute."""

    def __init__(self, parent, top, hand_over=None, pause=0.25):
        super().__init__(daemon=True)
        self.parent, self.top, self.hand_over, self.pause = parent, top, hand_over, pause
        self.parts, self.spent, self.ended = {}, {}, threading.Event()

    def run(self):
        looks = 0
        while not self.ended.wait(self.pause):
            looks += 1
            if self.hand_over and looks % 240 == 0:
                self.hand_over(self)
            now = running()
            below = collections.defaultdict(list)
            for pid, (parent, _, _) in now.items():
                below[parent].append(pid)

            def spent(pid):
                return now[pid][1] + sum(spent(it) for it in below[pid])

            def look(pid):
                if is_check(now[pid][2]):
                    if pid not in self.parts:
                        self.parts[pid] = part_of(pid, now[pid][2], self.top)
                    self.spent[pid] = spent(pid)
                else:
                    for it in below[pid]:
                        look(it)

            if self.parent in now:
                look(self.parent)

    def told(self):
        sums = collections.Counter()
        for pid, spent in list(self.spent.items()):
            if self.parts[pid]:
                sums[self.parts[pid]] += spent
        return sums


def lines_of(crate):
    texts = [it for it in [*crate.rglob("*.rt"), *crate.rglob("*.antt")] if "out" not in it.relative_to(crate).parts]
    return sum(it.read_bytes().count(b"\n") for it in texts)


def gate():
    """The words of a gate that proves from nothing."""
    told = subprocess.run(["rt", "help"], capture_output=True, text=True, errors="replace")
    return ["rt", "ci", "--anew"] if re.search(r"rt ci\b[^\n]*--anew", told.stdout + told.stderr) else ["rt", "ci"]


def run_of(top, began, watch, last, status):
    """All that is known of a run so far."""
    told, used = watch.told(), resource.getrusage(resource.RUSAGE_CHILDREN)
    crates = {}
    for (name, part), spent in told.items():
        crates.setdefault(name, {"lines": lines_of(top / "crates" / name), "parts": {}})["parts"][part] = spent / 60
    whole = used.ru_utime + used.ru_stime if status is not None else sum(told.values())
    return {"last": last, "status": status, "minutes": (time.time() - began) / 60, "whole": whole / 60, "crates": crates}


def measured(top, kept):
    """Runs the gate. What is known is kept once a minute, so that a run that is cut leaves what it measured."""
    began, last = time.time(), "its end was not seen"
    child = subprocess.Popen(gate(), cwd=top, stdout=subprocess.PIPE, stderr=subprocess.STDOUT, text=True, errors="replace")
    watch = Watch(child.pid, top, lambda it: keep(kept, run_of(top, began, it, last, None)))
    watch.start()
    for line in child.stdout:
        if line.startswith("rt: ") or "passed, " in line:
            print(f"{(time.time() - began) / 60:6.1f} {line[:160].rstrip()}", file=sys.stderr, flush=True)
        if "passed, " in line:
            last = line.strip()
    status = child.wait()
    watch.ended.set()
    watch.join()
    return run_of(top, began, watch, last, status)


def goes_on(pid):
    """Whether a process is there and hasn't ended."""
    try:
        return not pathlib.Path(f"/proc/{pid}/stat").read_text().rpartition(")")[2].startswith(" Z")
    except OSError:
        return False


def beside(parent, top):
    """Looks at the gate below a process that was started by another, until that ends or a signal says that it has."""
    began, told = time.time(), threading.Event()
    signal.signal(signal.SIGTERM, lambda *_: told.set())
    watch = Watch(parent, top, pause=1)
    watch.start()
    while goes_on(parent) and not told.wait(1):
        pass
    watch.ended.set()
    watch.join()
    return run_of(top, began, watch, "looked at once a second", None)


def keep(file, run):
    if file:
        pathlib.Path(file).write_text(json.dumps(run, indent=1))


def row(name, crate):
    parts = crate["parts"]
    edits = {it[5:]: spent for it, spent in parts.items() if it.startswith("edit ")}
    of_edits = sum(edits.values()) + parts.get("edits, the crate itself", 0)
    whole = parts.get("first", 0) + parts.get("tests", 0) + of_edits
    dearest = ", ".join(f"{it} {60 * spent:.0f}" for it, spent in sorted(edits.items(), key=lambda it: -it[1])[:5])
    figures = [parts.get("first", 0), parts.get("tests", 0), of_edits, whole, 1000 * whole / max(crate["lines"], 1)]
    return f"| `{name}` | {crate['lines']} | " + " | ".join(f"{it:.1f}" for it in figures) + f" | {len(edits)} | {dearest} |", figures[:4]


def show(run):
    print("| Crate | Lines | First check | With tests | Edits | Sum | Per 1,000 lines | Number of edits | The dearest, in seconds |")
    print("|---|---|---|---|---|---|---|---|---|")
    sums = [0, 0, 0, 0]
    for name, crate in sorted(run["crates"].items(), key=lambda it: -row(*it)[1][3]):
        text, figures = row(name, crate)
        sums = [a + b for a, b in zip(sums, figures)]
        print(text)
    lines = sum(it["lines"] for it in run["crates"].values())
    print(f"| all | {lines} | " + " | ".join(f"{it:.1f}" for it in [*sums, 1000 * sums[3] / max(lines, 1)]) + " | | |")
    print(f"\nThe whole run: {run['whole']:.1f} processor minutes, {run['minutes']:.1f} minutes; {run['last']}.")


def main():
    words = argparse.ArgumentParser(description=__doc__, formatter_class=argparse.RawDescriptionHelpFormatter)
    words.add_argument("--save", metavar="FILE")
    words.add_argument("--beside", metavar="PID", type=int)
    words.add_argument("--show", metavar="FILE", nargs="+")
    words.add_argument("top", nargs="?", default=".")
    given = words.parse_args()
    top = pathlib.Path(given.top).resolve()
    if given.beside:
        runs = [beside(given.beside, top)]
    else:
        runs = [json.loads(pathlib.Path(it).read_text()) for it in given.show or []] or [measured(top, given.save)]
    keep(given.save, runs[0])
    for run in runs:
        show(run)
    if len(runs) == 2:
        print(f"\nThe later run takes {100 * runs[1]['whole'] / runs[0]['whole']:.0f} % of the processor minutes of the earlier.")
    return runs[-1]["status"] or 0


if __name__ == "__main__":
    sys.exit(main())
