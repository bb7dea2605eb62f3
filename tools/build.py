#!/usr/bin/env python3
"""Proves the libraries that the programs stand on, side by side where neither stands on the other, and builds the programs, optimised,
into bin/. Says at each library its place among them, the time so far, and how long the rest takes at this rate. What an earlier run
proved is not proved again. What the checks say goes to bin/build.log.

It calls the toolchain's own rt, which sums up a crate's sources before and after each step, once for each path by which the crate is
reached: a quarter of an hour for the topmost. Here a sum asks each crate for its own once. Where a toolchain is laid out in another
way, rt does the same by itself, and slower."""
import importlib.machinery
import importlib.util
import os
import re
import shutil
import signal
import subprocess
import sys
import threading
import time
from pathlib import Path

ROOT = Path(__file__).resolve().parent.parent
BIN = ROOT / "bin"
# The memory that a job takes, in kB.
JOB_MEMORY = 3_000_000
# Each program with what it is run on once it is built.
PROGRAMS = {
    "lobby_main": ["hash"],
    "lobby_play": [],
    "lobby_check": [str(ROOT / "examples/lobby.toml"), str(ROOT / "examples/accounts.toml")],
    "view_show": [],
}


def toolchain():
    """The module of rt, or None where this toolchain is laid out in another way."""
    try:
        loader = importlib.machinery.SourceFileLoader("rt_command", os.path.realpath(shutil.which("rt")))
        spec = importlib.util.spec_from_loader("rt_command", loader)
        module = importlib.util.module_from_spec(spec)
        loader.exec_module(module)
        crate = module.rtlib.Crate
        named = [crate.stamp, crate.below, crate.front_end, crate.build_rlib, crate.is_built]
        named += [module.rtlib.every, module.rtlib.crates_below, module.rtlib.lock]
        return module if all(map(callable, named)) else None
    except (AttributeError, OSError, SyntaxError, TypeError):
        return None


def sum_once(crate):
    """Has a sum ask each crate below for its own once, and not once for each path to it."""
    local, below = threading.local(), {}
    stamp_of, below_of = crate.stamp, crate.below

    def stamp(self):
        is_first = getattr(local, "sums", None) is None
        if is_first:
            local.sums = {}
        try:
            if self.folder not in local.sums:
                local.sums[self.folder] = stamp_of(self)
            return local.sums[self.folder]
        finally:
            if is_first:
                local.sums = None

    def below_once(self):
        if self.folder not in below:
            below[self.folder] = below_of(self)
        return list(below[self.folder])

    crate.stamp, crate.below = stamp, below_once
    # A look at all sources before the first proof serves who writes code, and takes minutes.
    crate.front_end = lambda self: 0


def share_processors(crate):
    """Gives each library as many jobs as it has processors where it begins: much of the time one library is built, for which all others
    wait."""
    running, lock, build = [0], threading.Lock(), crate.build_rlib
    processors = min(len(os.sched_getaffinity(0)), free_memory() // JOB_MEMORY)

    def build_rlib(self, flags, anew):
        if self.is_built():
            return 0
        with lock:
            running[0] += 1
            jobs = max(1, processors // running[0])
        try:
            status = build(self, ["--jobs", str(jobs)], anew)
            # Killed, most likely for memory: once more, with one job.
            return build(self, ["--jobs", "1"], anew) if status == -signal.SIGKILL and jobs > 1 else status
        finally:
            with lock:
                running[0] -= 1

    crate.build_rlib = build_rlib


def build_libraries(rt, places):
    """Builds what the programs stand on, and no program."""
    library, known, crates = rt.rtlib, {}, []
    share_processors(library.Crate)
    library.guarded()
    for name in PROGRAMS:
        folder = str(ROOT / "crates" / name)
        program = known.setdefault(folder, library.Crate(folder, str(ROOT), known))
        crates += [it for it in [*program.below(), program] if it not in crates]
    # rt builds what the crates below its folder stand on: it is told of all programs in the folder of the first.
    found, first = library.crates_below, str(ROOT / "crates" / next(iter(PROGRAMS)))
    os.chdir(first)
    library.crates_below = lambda top: list(crates) if top == first else found(top)
    return library.every("build", places)


def build_program(rt, name):
    """Builds one program over the libraries, which nothing else writes meanwhile."""
    rt.rtlib.lock = lambda crates: []
    os.chdir(ROOT / "crates" / name)
    return rt.main(["run", "--", *PROGRAMS[name]])


def told(process, names):
    """Says of each library that is done how far the whole is, and keeps all else for the log."""
    begun, done, last = time.monotonic(), 0, []
    with open(BIN / "build.log", "a", encoding="utf-8") as log:
        for line in process.stdout:
            log.write(line)
            last = (last + [line])[-20:]
            name = re.fullmatch(r"== (\w+)\n", line)
            if name and name[1] in names:
                done += 1
                spent = (time.monotonic() - begun) / 60
                rest = spent / done * (len(names) - done)
                print(f"{done} of {len(names)}: {name[1]}; {spent:.0f} minutes so far, {rest:.0f} to go at this rate", flush=True)
    if process.wait():
        print("".join(last), end="", flush=True)
    return process.returncode


def free_memory():
    """In kB."""
    return int(re.search(r"MemAvailable: +(\d+)", Path("/proc/meminfo").read_text())[1])


def places():
    """How many libraries at once: twice the processors, since one that waits for another takes a place too, as far as free memory
    reaches."""
    return str(max(1, min(free_memory() // JOB_MEMORY, 2 * len(os.sched_getaffinity(0)))))


def started(words, **how):
    return subprocess.Popen(words, stdin=subprocess.DEVNULL, stderr=subprocess.STDOUT, text=True, errors="replace", **how)


def libraries(rt, names):
    if rt:
        words = [sys.executable, __file__, "libraries", places()]
        return told(started(words, stdout=subprocess.PIPE), names)
    words = ["rt", "all", "check", "--jobs", places()]
    return max(told(started(words, stdout=subprocess.PIPE, cwd=ROOT / "crates" / name), names) for name in PROGRAMS)


def programs(rt):
    """Builds the programs side by side, and lays them into bin/ with the time at which all began."""
    begun, runs, failed = BIN / "begun", {}, 0
    for name in PROGRAMS:
        words = [sys.executable, __file__, "program", name] if rt else ["rt", "run", "--", *PROGRAMS[name]]
        with open(BIN / f"{name}.log", "w", encoding="utf-8") as log:
            runs[name] = started(words, stdout=log, cwd=ROOT / "crates" / name)
    for name, run in runs.items():
        if run.wait():
            failed = 1
            print("".join((BIN / f"{name}.log").read_text(errors="replace").splitlines(True)[-20:]), end="")
            continue
        shutil.copy(ROOT / "crates" / name / "out" / name, BIN / name)
        subprocess.run([ROOT / "packaging/deb.py", "--mark", BIN / name], check=True)
        os.utime(BIN / name, (begun.stat().st_atime, begun.stat().st_mtime))
        print(f"bin/{name} is built", flush=True)
    return failed


def main():
    rt = toolchain()
    if len(sys.argv) > 2:
        sum_once(rt.rtlib.Crate)
        return build_libraries(rt, int(sys.argv[2])) if sys.argv[1] == "libraries" else build_program(rt, sys.argv[2])
    BIN.mkdir(exist_ok=True)
    # The programs get the time at which this began, so that a source edited meanwhile is newer than they.
    (BIN / "begun").touch()
    (BIN / "build.log").write_text("")
    words = ["awk", "-v", "names=" + " ".join(PROGRAMS), "-f", str(ROOT / "tools/below.awk"), str(ROOT / "crates.txt")]
    names = set(subprocess.run(words, stdout=subprocess.PIPE, text=True, check=True).stdout.split())
    return libraries(rt, names) or programs(rt)


if __name__ == "__main__":
    sys.exit(main())
