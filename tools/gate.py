#!/usr/bin/env python3
"""The merge gate: the checks that need no program, `rt ci`, and then the checks of the built programs, and at the end where the
processor's time went. `tools/gate.py --first` runs only those of the first that take seconds.

Says for each crate the seconds of a processor of its proof, its tests, its programs and its edits, for each edit its own, and
which crates take more than they may. The same goes to out/gate.txt. Behind it stands again what passed and failed. The status is
that of the first part that failed, or 1 where nothing else did and a proof takes far more than any may."""
import collections
import functools
import hashlib
import os
import re
import shutil
import subprocess
import sys
import threading
import time
from pathlib import Path

ROOT = Path(__file__).resolve().parent.parent
# These take seconds and need no program: they come before the proofs, and `tools/gate.py --first` runs them alone.
FIRST = ["widths.py", "definitions.py", "heads.py", "header.py", "links.py", "protocol.py"]
# This needs none either, and takes two minutes.
GATEWAY = "gateway.sh"
# This comes before the proofs where an earlier run left the program, and no file of the crates has changed since.
ROWS, PLAYER = "rows.sh", ROOT / "crates/lobby_play/out/lobby_play"
# These run the programs that the proofs left behind.
CHECKS = [ROWS, "programs.sh", "serve.sh", "proxy.py", "wakes.py", "log.py", "stopping.py", "record.py", "record_tool.py",
          "accounts.py", "scarce.sh", "short_memory.py", "files.sh", "setup_faults.py", "package.sh", "gateway_served.sh",
          "views.sh", "memory.sh", "memory_bounds.sh", "refused_memory.sh", "library.py", "python.sh"]
# What the proof of a crate may take from nothing, in seconds of a processor: most crates, and any. The table names each that takes more.
# One that takes half as much again as any may fails the gate.
BUDGET, LIMIT = 300, 400
FAR = 1.5 * LIMIT
# Machines differ by three times: on one that takes longer than this for the proof of the lowest crate, all may take so many times as long.
LOWEST, LOWEST_TAKES = "line_words", 60
KINDS = ["proof", "tests", "programs", "edits"]
TICK = os.sysconf("SC_CLK_TCK")
# Seconds between two looks. What a process takes between the last look and its end is told apart.
PAUSE = 1.0


def edited(edit, texts):
    """Writes into texts, by path, what the files of a crate are with this edit."""
    path = old = ""
    for line in edit.read_text(encoding="utf-8").split("\n"):
        if line.startswith("file: "):
            path = line[6:].strip()
        elif line.startswith("old: "):
            old = line[5:]
        elif line.startswith("new:"):
            texts[path] = texts[path].replace(old, line[4:].removeprefix(" "))


def edit_in(folder, crate):
    """The edit with which the folder is a copy of the crate, or that there is none."""
    for edit in sorted((ROOT / "crates" / crate / "must-fail").glob("*.edit")):
        paths = re.findall(r"(?m)^file: (.*\S)", edit.read_text(encoding="utf-8"))
        try:
            texts = {it: (ROOT / "crates" / crate / it).read_text(encoding="utf-8") for it in paths}
            edited(edit, texts)
            if all((folder / it).read_text(encoding="utf-8") == texts[it] for it in paths):
                return edit.stem
        except OSError:
            pass
    return "as it is"


class Watch:
    """Looks at the processes below this one, and keeps what each took."""

    def __init__(self):
        self.taken = {}
        self.label = {}
        self.over = threading.Event()

    def processes(self):
        """Parent, clock ticks taken and start of each process, by number."""
        found = {}
        for name in os.listdir("/proc"):
            if name.isdigit():
                try:
                    said = Path(f"/proc/{name}/stat").read_text(errors="replace").rpartition(")")[2].split()
                    found[int(name)] = int(said[1]), int(said[11]) + int(said[12]), said[19]
                except (OSError, IndexError):
                    pass
        return found

    def label_of(self, process, parent):
        """Which crate a process works for and how, or what its parent does."""
        try:
            words = Path(f"/proc/{process}/cmdline").read_bytes().decode(errors="replace").split("\0")
            folder = Path(os.readlink(f"/proc/{process}/cwd"))
        except OSError:
            return parent
        if "--crate-name" not in words:
            return parent
        crate = words[words.index("--crate-name") + 1]
        if folder.name.startswith("rt-edit-"):
            return crate, "edits", edit_in(folder, crate)
        kind = "tests" if "--test" in words else "programs" if "--crate-checked" in words else "proof"
        return crate, kind, ""

    def look(self):
        found = self.processes()
        below = collections.defaultdict(list)
        for it, (parent, _, _) in found.items():
            below[parent].append(it)
        todo = [(it, ("", "", "")) for it in below[os.getpid()]]
        while todo:
            process, parent = todo.pop()
            _, ticks, start = found[process]
            key = process, start
            # A process may not be what it will be until it has started its program.
            if self.label.get(key, ("", "", ""))[0] == "":
                self.label[key] = self.label_of(process, parent)
            self.taken[key] = ticks / TICK
            todo += [(it, self.label[key]) for it in below[process]]

    def run(self):
        while not self.over.wait(PAUSE):
            self.look()

    def sums(self):
        """Seconds by crate, kind and edit."""
        sums = collections.Counter()
        for key, seconds in self.taken.items():
            sums[self.label[key]] += seconds
        return sums


def seconds_of(sums, crate, kind):
    """The seconds of a crate that went to this."""
    return sum(seconds for key, seconds in sums.items() if key[0] == crate and key[1] == kind)


def slowness(sums):
    """How many times as long as elsewhere a proof takes here, as far as this run can tell; 1 where it does not take longer."""
    return max(1.0, seconds_of(sums, LOWEST, "proof") / LOWEST_TAKES)


def far_over(sums):
    """A line for each crate whose proof takes far more than any may; none where this run cannot tell how slow the machine is."""
    if seconds_of(sums, LOWEST, "proof") == 0:
        return
    times = slowness(sums)
    for crate in sorted({crate for crate, _, _ in sums if crate}):
        proof = seconds_of(sums, crate, "proof")
        if proof > FAR * times:
            yield f"the proof of {crate} takes {proof:.0f} seconds of a processor, and none may take more than {LIMIT * times:.0f} here: FAILED"


def paths():
    """How many paths lead down from the server: so often some kits' rt sums up sources for one run there."""
    below = dict(re.findall(r"(?m)^(\w+)[^:\n]*:(.*)", (ROOT / "crates.txt").read_text(encoding="utf-8")))

    @functools.lru_cache(None)
    def down(name):
        return 1 + sum(map(down, below.get(name, "").split())) if name in below else 0

    return f"{len(below)} crates; {down('lobby_main')} paths from lobby_main"


def table(sums, whole, minutes):
    """The lines of the table."""
    crates = sorted({crate for crate, _, _ in sums if crate}, key=lambda it: -sum(s for k, s in sums.items() if k[0] == it))
    times = slowness(sums)
    yield f"{'seconds of a processor':24}" + "".join(f"{it:>10}" for it in [*KINDS, "sum"])
    for crate in crates:
        each = [seconds_of(sums, crate, it) for it in KINDS]
        note = "  over its limit" if each[0] > LIMIT * times else "  over its budget" if each[0] > BUDGET * times else ""
        yield f"{crate:24}" + "".join(f"{it:10.0f}" for it in [*each, sum(each)]) + note
    each = [sum(seconds_of(sums, crate, it) for crate in crates) for it in KINDS]
    yield f"{'all crates':24}" + "".join(f"{it:10.0f}" for it in [*each, sum(each)])
    yield f"{'rt, runs and checks':24}" + " " * 40 + f"{sums['', '', '']:10.0f}"
    yield f"{'between looks':24}" + " " * 40 + f"{whole - sum(sums.values()):10.0f}"
    edits = [(s, f"{crate}/{edit}") for (crate, kind, edit), s in sums.items() if kind == "edits"]
    yield ""
    for seconds, edit in sorted(edits, reverse=True):
        yield f"{seconds:8.0f}  {edit}"
    yield ""
    lanes = len(os.sched_getaffinity(0))
    yield paths()
    yield f"gate: {whole / 60:.1f} minutes of a processor, {minutes:.1f} minutes on {lanes} processors"


def shown(words, environment, told):
    """The status of a part of the gate, which shows what it prints. Told gets its lines of what passed and failed. An edit that does not
    fit the code fails the gate, though rt only says so."""
    part = subprocess.Popen(words, cwd=ROOT, env=environment, stdout=subprocess.PIPE, stderr=subprocess.STDOUT, text=True, errors="replace")
    bad = 0
    for line in part.stdout:
        print(line, end="", flush=True)
        bad |= "must-fail" in line and "BAD EDIT" in line
        if re.search(r"\b(FAILED|NOT PROVED|BAD EDIT|passed, \d+ failed)\b", line):
            told.append(line.rstrip("\n"))
    if part.wait():
        told.append(f"{Path(words[0]).name} ends with status {part.returncode}")
    return part.returncode or int(bad)


def checked(name, told):
    """The status of a check."""
    return shown([ROOT / "checks" / name], {**os.environ, "AS_BUILT": "1"}, told)


def sum_of(program):
    """A sum of a program's bytes; None where there is none."""
    return hashlib.sha256(program.read_bytes()).digest() if program.exists() else None


def is_kept(program):
    """Whether a program is there, and neither a file of the crates nor the toolchain is newer."""
    toolchain = shutil.which("rt")
    if not program.exists() or not toolchain:
        return False
    words = ["find", "crates.txt", "crates", os.path.realpath(toolchain), "-name", "out", "-prune", "-o"]
    words += ["-type", "f", "-newer", program, "-print", "-quit"]
    newer = subprocess.run(words, cwd=ROOT, stdout=subprocess.PIPE, text=True)
    return newer.returncode == 0 and not newer.stdout


def first(checks, told):
    """The status of the first of these that failed. All are run, and those that failed are named behind them."""
    statuses = {it: checked(it, told) for it in checks}
    failed = [it for it, status in statuses.items() if status]
    if failed:
        print(f"gate: FAILED before any proof: {', '.join(failed)}", flush=True)
    return statuses[failed[0]] if failed else 0


def quick():
    """The checks that take seconds, and need no program that is not there."""
    return [*FIRST, ROWS] if is_kept(PLAYER) else FIRST


def proofs_and_checks(lanes, told):
    """The status of `rt ci` and of all checks. One that comes before the proofs does not end the run, which may tell more."""
    checks = quick()
    played = ROWS in checks and sum_of(PLAYER)
    before = first([*checks, GATEWAY], told)
    status = shown(["rt", "ci"], {**os.environ, "RT_JOBS": lanes}, told)
    for it in CHECKS:
        # Rows that were played are played again only if the proofs left another program.
        if it != ROWS or not played or played != sum_of(PLAYER):
            status = status or checked(it, told)
    return before or status


def main():
    if sys.argv[1:] == ["--first"]:
        return first(quick(), [])
    begun = time.monotonic()
    lanes = subprocess.run([ROOT / "tools/lanes.sh"], stdout=subprocess.PIPE, text=True, check=True).stdout.strip()
    watch = Watch()
    looking = threading.Thread(target=watch.run)
    looking.start()
    told = []
    try:
        status = proofs_and_checks(lanes, told)
    finally:
        watch.over.set()
        looking.join()
    times = os.times()
    sums = watch.sums()
    far = [*far_over(sums)]
    told += far
    status = status or (1 if far else 0)
    lines = [*table(sums, times.children_user + times.children_system, (time.monotonic() - begun) / 60)]
    (ROOT / "out").mkdir(exist_ok=True)
    (ROOT / "out/gate.txt").write_text("\n".join(lines) + "\n")
    # What failed stands last, where whoever sees only the end finds it.
    print("\n".join(["", *lines, "", *told]), flush=True)
    return status


if __name__ == "__main__":
    sys.exit(main())
