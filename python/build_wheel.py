#!/usr/bin/env python3
"""Makes the wheel of the package with the C library in it. `build_wheel.py LIBRARY FOLDER` writes it into a folder, and
says its name.

It is also the build backend that pyproject.toml names, for `pip install`; the library is then $LIBLOBBY, or
bin/liblobby.so of the repository. A wheel is a zip file with four texts beside the package, so that this needs nothing
but Python."""
from __future__ import annotations

import base64
import hashlib
import importlib.util
import os
import re
import sys
import zipfile
from pathlib import Path

HERE = Path(__file__).resolve().parent
ROOT = HERE.parent
TIME = (1980, 1, 1, 0, 0, 0)    # of each file, so that the same files make the same wheel
KINDS = (".py", ".typed", ".html", ".css", ".js")


def version() -> str:
    """The version of this tree, as its Debian packages have it."""
    spec = importlib.util.spec_from_file_location("deb", ROOT / "packaging/deb.py")
    if spec is None or spec.loader is None:
        raise SystemExit("there is no packaging/deb.py")
    deb = importlib.util.module_from_spec(spec)
    spec.loader.exec_module(deb)
    return str(deb.version())


def sources() -> list[Path]:
    """The files of the package, but for the library."""
    return sorted(it for it in (HERE / "rudderraisin").rglob("*") if it.suffix in KINDS)


def tag(library: bytes) -> str:
    """For which systems the wheel is: those with a C library as new as the shared library asks for."""
    needed = [(int(a), int(b)) for a, b in re.findall(rb"GLIBC_(\d+)\.(\d+)", library)]
    return "py3-none-manylinux_{}_{}_x86_64".format(*max([(2, 5), *needed]))


def texts(number: str, tag: str) -> dict[str, str]:
    """The texts beside the package."""
    project = (HERE / "pyproject.toml").read_text(encoding="utf-8")
    said = dict(re.findall(r'(?m)^(description|requires-python) = "(.+)"$', project))
    bots = (ROOT / "docs/BOTS.md").read_text(encoding="utf-8")
    return {
        "METADATA": f"Metadata-Version: 2.1\nName: rudderraisin\nVersion: {number}\nSummary: {said['description']}\n"
                    f"Requires-Python: {said['requires-python']}\nDescription-Content-Type: text/markdown\n\n{bots}",
        "entry_points.txt": "[console_scripts]\nrudderraisin_status = rudderraisin.page.main:main\n",
        "WHEEL": f"Wheel-Version: 1.0\nGenerator: build_wheel\nRoot-Is-Purelib: false\nTag: {tag}\n",
    }


def record(name: str, data: bytes) -> str:
    digest = base64.urlsafe_b64encode(hashlib.sha256(data).digest()).rstrip(b"=").decode()
    return f"{name},sha256={digest},{len(data)}\n"


def write_wheel(library: Path, folder: Path) -> str:
    """Writes the wheel into the folder, and gives its name."""
    shared, number = library.read_bytes(), version()
    beside = f"rudderraisin-{number}.dist-info"
    files = {str(it.relative_to(HERE)): it.read_bytes() for it in sources()}
    files["rudderraisin/liblobby.so"] = shared
    files.update({f"{beside}/{name}": text.encode() for name, text in texts(number, tag(shared)).items()})
    files[f"{beside}/RECORD"] = ("".join(record(*it) for it in files.items()) + f"{beside}/RECORD,,\n").encode()
    name = f"rudderraisin-{number}-{tag(shared)}.whl"
    folder.mkdir(parents=True, exist_ok=True)
    with zipfile.ZipFile(folder / name, "w", zipfile.ZIP_DEFLATED) as wheel:
        for path, data in files.items():
            entry = zipfile.ZipInfo(path, TIME)
            entry.external_attr, entry.compress_type = 0o644 << 16, zipfile.ZIP_DEFLATED
            wheel.writestr(entry, data)
    return name


def build_wheel(wheel_directory: str, config_settings: object = None, metadata_directory: str | None = None) -> str:
    """What pip calls."""
    return write_wheel(Path(os.environ.get("LIBLOBBY") or ROOT / "bin/liblobby.so"), Path(wheel_directory))


if __name__ == "__main__":
    print(write_wheel(Path(sys.argv[1]), Path(sys.argv[2])))
