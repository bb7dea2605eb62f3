#!/usr/bin/env python3
"""deb.py [--version|--mark PROGRAM..] : makes the Debian packages, out of what install.sh installs, into out/; or says of which version
they would be; or has programs say that for --version.

The version is the newest number of CHANGELOG.md; where that has changes behind it, with the time and name of the last commit behind a
`+`, which Debian takes for newer than the number alone."""
import gzip
import hashlib
import os
import re
import shutil
import subprocess
import sys
import tempfile
import textwrap
from calendar import timegm
from email.utils import formatdate
from pathlib import Path
from time import gmtime, strftime, strptime

ROOT = Path(__file__).resolve().parent.parent
SCRIPTS = ROOT / "packaging/deb"
MAINTAINER = "Rudderraisin maintainers <maintainers@users.noreply.rudderraisin.example>"
CONFIGURATION = "etc/rudderraisin"
# How many bytes stand behind a program that is no release, and how they begin, as the program knows them.
TAIL, TAIL_BEGINS = 96, b"\nrudderraisin version "
# The packages. Each takes files from where install.sh lays them to their places in it; the server's has all that no other takes.
SERVER = "rudderraisin"
LIBRARIES = "usr/lib/x86_64-linux-gnu"
FILES: dict[str, dict[str, str]] = {
    # Settings and accounts are no files of the package: its script makes them where they are not there, and nobody is asked about them.
    SERVER: {f"{CONFIGURATION}/{it}": f"usr/share/rudderraisin/{it}" for it in ("lobby.toml", "accounts.toml")},
    # Its settings are no file of the package: its script makes them, of those of the package that it comes in place of.
    "rudderraisin-gateway": {f"{CONFIGURATION}/gateway.conf": "usr/share/rudderraisin-gateway/gateway.conf", **{it: it for it in [
        "usr/bin/rudderraisin_gateway", "usr/bin/rudderraisin_gatewayctl", "usr/lib/systemd/system/rudderraisin-gateway.service",
        "usr/share/man/man1/rudderraisin_gateway.1", "usr/share/man/man1/rudderraisin_gatewayctl.1"]}},
    "liblobby0": {it: it for it in [f"{LIBRARIES}/liblobby.so.0"]},
    "liblobby-dev": {it: it for it in [
        "usr/include/lobby.h", f"{LIBRARIES}/liblobby.a", f"{LIBRARIES}/liblobby.so", f"{LIBRARIES}/pkgconfig/liblobby.pc"]},
    "python3-rudderraisin": {f"{CONFIGURATION}/status.conf": "usr/share/python3-rudderraisin/status.conf", **{it: it for it in [
        "usr/lib/python3", "usr/bin/rudderraisin_status", "usr/lib/systemd/system/rudderraisin-status.service",
        "usr/share/man/man1/rudderraisin_status.1"]}},
}
# Packages that are empty, and lead to what came in place of them.
TRANSITIONAL = {"rudderraisin-front": "rudderraisin-gateway"}


def fields(name, programs):
    """What the control file of a package says of it alone. Programs are those of it that want the C library."""
    if name in TRANSITIONAL:
        return {"Architecture": "all", "Section": "oldlibs", "Depends": TRANSITIONAL[name]}
    architecture = output("dpkg", "--print-architecture")
    return {
        SERVER: {"Architecture": architecture, "Depends": f"{libc(programs)}, adduser, python3 (>= 3.11)",
                 "Suggests": "rudderraisin-gateway"},
        "rudderraisin-gateway": {"Architecture": architecture, "Recommends": "openssl", "Suggests": SERVER,
                                 "Breaks": f"rudderraisin-front (<< {version()})", "Replaces": f"rudderraisin-front (<< {version()})"},
        "liblobby0": {"Architecture": architecture, "Section": "libs", "Depends": libc(programs), "Multi-Arch": "same"},
        "liblobby-dev": {"Architecture": architecture, "Section": "libdevel", "Depends": f"liblobby0 (= {version()})"},
        "python3-rudderraisin": {"Architecture": "all", "Section": "python", "Depends": f"python3 (>= 3.9), liblobby0 (= {version()})",
                                 "Suggests": SERVER},
    }[name]


def output(*words):
    """What a command prints, or nothing where it is not there or fails."""
    try:
        return subprocess.run(words, cwd=ROOT, stdout=subprocess.PIPE, stderr=subprocess.DEVNULL, text=True, check=True).stdout.strip()
    except (OSError, subprocess.CalledProcessError):
        return ""


def changes():
    """The sections of CHANGELOG.md, the newest first: what each is of, its date or nothing, and its text."""
    parts = re.split(r"(?m)^## \[(.+?)\](?: - (\S+))?\n", (ROOT / "CHANGELOG.md").read_text(encoding="utf-8"))
    return [(name, day, text.strip()) for name, day, text in zip(parts[1::3], parts[2::3], parts[3::3])]


def version():
    """The version of this tree."""
    number = next(name for name, _, _ in changes() if name != "Unreleased")
    if not any(text for name, _, text in changes() if name == "Unreleased"):
        return number
    commit = output("git", "log", "-1", "--format=%ct %h").split()
    return f"{number}+git{strftime('%Y%m%d%H%M', gmtime(int(commit[0])))}.{commit[1]}" if commit else f"{number}+unreleased"


def mark(program):
    """Has a program say of which version it is, where that is no release: it looks for it behind its own last byte."""
    if shown := re.search(r"\+.*", version()):
        had = program.read_bytes()
        had = had[:-TAIL] if had[-TAIL:].startswith(TAIL_BEGINS) else had
        program.write_bytes(had + (TAIL_BEGINS + shown.string.encode()).ljust(TAIL))


def debian_changes(name):
    """CHANGELOG.md in the form of Debian: each version at the begin of its day, what is behind it at the last commit."""
    entries = []
    for number, day, text in changes():
        if not text:
            continue
        shown = version() if number == "Unreleased" else number
        seconds = timegm(strptime(day, "%Y-%m-%d")) if day else int(output("git", "log", "-1", "--format=%ct") or 0)
        text = re.sub(r"\[([^\]]*)\]\([^)]*\)", r"\1", text).replace("**", "")
        lines = []
        for it in re.split(r"(?m)^(?=- )|\n\n", text):
            words = " ".join(it.split())
            if words.startswith("### "):
                lines.append(f"  [ {words[4:]} ]")
            elif words.endswith(":"):
                lines.append(f"  {words}")
            elif words:
                lines.append(textwrap.fill(words.removeprefix("- "), 78, initial_indent="  * ", subsequent_indent="    "))
        entries.append(f"{name} ({shown}) unstable; urgency=medium\n\n" + "\n".join(lines)
                       + f"\n\n -- {MAINTAINER}  {formatdate(seconds)}\n")
    return "\n".join(entries)


def libc(programs):
    """The C library that programs need, as a relation; nothing where they need none."""
    found = [it for program in programs for it in re.findall(rb"GLIBC_(\d+)\.(\d+)", program.read_bytes())]
    return "libc6 (>= {}.{})".format(*max((int(a), int(b)) for a, b in found)) if found else ""


def packed(path, data):
    path.parent.mkdir(parents=True, exist_ok=True)
    path.write_bytes(gzip.compress(data, 9, mtime=0))


def fill(stage, name, fields, is_proved):
    """Adds to the files of a package what Debian wants of one, and makes it."""
    share = stage / "usr/share"
    for page in share.glob("man/man?/*"):
        packed(page.with_name(page.name + ".gz"), page.read_bytes())
        page.unlink()
    packed(share / f"doc/{name}/changelog.gz", debian_changes(name).encode())
    rights = [it for it in (SCRIPTS / "copyright", SCRIPTS / f"{name}.copyright") if it.exists()]
    (share / f"doc/{name}/copyright").write_text("".join(it.read_text(encoding="utf-8") for it in rights), encoding="utf-8")
    overrides = SCRIPTS / f"{name}.overrides"
    if overrides.exists():
        (share / "lintian/overrides").mkdir(parents=True)
        shutil.copy(overrides, share / "lintian/overrides" / name)
    files = sorted(it for it in stage.rglob("*") if it.is_file() and not it.is_symlink())
    about = (SCRIPTS / f"{name}.description").read_text(encoding="utf-8")
    if not is_proved:
        about = about.rstrip("\n") + "\n .\n The programs of this package were built without their proof.\n"
    control = stage / "DEBIAN"
    control.mkdir()
    size = sum((it.stat().st_size + 1023) // 1024 for it in files)
    head = {"Package": name, "Version": version(), "Section": "net", "Priority": "optional", **fields, "Maintainer": MAINTAINER,
            "Installed-Size": size}
    (control / "control").write_text("".join(f"{key}: {value}\n" for key, value in head.items()) + about, encoding="utf-8")
    (control / "md5sums").write_text("".join(f"{hashlib.md5(it.read_bytes()).hexdigest()}  {it.relative_to(stage)}\n"
                                             for it in files if CONFIGURATION not in str(it)))
    kept = [f"/{it.relative_to(stage)}\n" for it in files if CONFIGURATION in str(it)]
    if kept:
        (control / "conffiles").write_text("".join(kept))
    for script in SCRIPTS.glob(f"{name}.*"):
        if script.suffix in (".preinst", ".postinst", ".prerm", ".postrm"):
            shutil.copy(script, control / script.suffix[1:])
            (control / script.suffix[1:]).chmod(0o755)
        elif script.suffix in (".shlibs", ".triggers"):
            shutil.copy(script, control / script.suffix[1:])
    for it in [stage, *stage.rglob("*")]:
        if it.is_dir():
            it.chmod(0o755)
    (ROOT / "out").mkdir(exist_ok=True)
    subprocess.run(["dpkg-deb", "--root-owner-group", "-Zxz", "--build", stage, ROOT / "out"], check=True)


def move(places, source, target):
    """Moves files between two packages, where they are there, from each place to the other."""
    for it, place in places.items():
        if (source / it).is_symlink() or (source / it).exists():
            (target / place).parent.mkdir(parents=True, exist_ok=True)
            shutil.move(source / it, target / place)
            if place.startswith("usr/share/"):
                (target / place).chmod(0o644)


def binaries(stage):
    """The programs and libraries of a package that are no scripts and no links."""
    found = [it for it in sorted([*stage.glob("usr/bin/*"), *stage.glob(f"{LIBRARIES}/*.so.*")]) if not it.is_symlink()]
    return [it for it in found if it.read_bytes()[:4] == b"\x7fELF"]


def main():
    if sys.argv[1:] == ["--version"]:
        print(version())
        return 0
    if sys.argv[1:2] == ["--mark"]:
        for it in map(Path, sys.argv[2:]):
            mark(it)
        return 0
    if not shutil.which("dpkg-deb"):
        sys.exit("there is no dpkg-deb, which makes the packages: install dpkg")
    os.environ.setdefault("SOURCE_DATE_EPOCH", output("git", "log", "-1", "--format=%ct") or "0")
    with tempfile.TemporaryDirectory() as room:
        server = Path(room, SERVER)
        # Nobody knows of programs in a folder of one's own whether they were proved.
        words = {**os.environ, "PREFIX": "/usr", "SYSCONFDIR": "/etc", "DESTDIR": str(server), "PROGRAMS": ""}
        told = subprocess.run([ROOT / "packaging/install.sh", "install"], env=words, stdout=subprocess.DEVNULL, stderr=subprocess.PIPE,
                              text=True)
        print(told.stderr, end="", file=sys.stderr)
        if told.returncode:
            return told.returncode
        is_proved = "not the proved program" not in told.stderr
        for name, places in FILES.items():
            move(places, server, Path(room, name))
        made = [it for it in FILES if Path(room, it).exists()]
        for name in made + [it for it, later in TRANSITIONAL.items() if later in made]:
            stage = Path(room, name)
            programs = binaries(stage)
            if programs and shutil.which("strip"):
                subprocess.run(["strip", "--strip-unneeded", "--remove-section=.comment", *programs], check=True)
            for it in programs if name == SERVER else []:
                mark(it)
            fill(stage, name, fields(name, programs), is_proved or name != SERVER)
    return 0


if __name__ == "__main__":
    sys.exit(main())
