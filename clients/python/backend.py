"""How pip builds the package (PEP 517): with Python's own library alone, so that it works offline.

The wheel holds the package and what clients/python/make has built for the processor in
target/python. The environment may name another processor, TRIGGER_CARD_TARGET (x86-64 or aarch64).
"""

import base64
import hashlib
import os
import platform
import stat
import zipfile
from pathlib import Path

HERE = Path(__file__).resolve().parent
ROOT = HERE.parent.parent
NAME = "trigger_card"

# The library needs nothing of a C library but memcpy, memmove and memset, so it works with any.
TAGS = {
    "x86-64": "manylinux_2_17_x86_64.manylinux2014_x86_64",
    "aarch64": "manylinux_2_17_aarch64.manylinux2014_aarch64",
}


def _target():
    target = os.environ.get("TRIGGER_CARD_TARGET") or platform.machine().replace("x86_64", "x86-64")
    if target not in TAGS:
        raise SystemExit(f"trigger_card is built for {' and '.join(TAGS)}, not for {target}")
    return target


def _version():
    return (ROOT / "VERSION").read_text().strip()


def _metadata():
    lines = ["Metadata-Version: 2.1", "Name: trigger-card", f"Version: {_version()}", "Requires-Python: >=3.9"]
    lines += ["Summary: The trigger card of sixteen or thirty-two cells, over its proved library"]
    lines += ["Provides-Extra: numpy", "Requires-Dist: numpy; extra == 'numpy'"]
    lines += ["Description-Content-Type: text/markdown", "", (HERE / "README.md").read_text()]
    return "\n".join(lines).encode()


def _wheel(tag):
    lines = ["Wheel-Version: 1.0", "Generator: clients/python/backend.py", "Root-Is-Purelib: false"]
    return "\n".join(lines + [f"Tag: py3-none-{platform}" for platform in tag.split(".")] + [""]).encode()


def _files(target):
    """What the wheel holds: names and bytes, and whether a program."""
    built = ROOT / "target" / "python" / target
    if not (built / "libtrigger_card.so").is_file():
        raise SystemExit(f"there is no {built}/libtrigger_card.so: clients/python/make {target} builds it")
    info = f"{NAME}-{_version()}.dist-info"
    for path in sorted(HERE.joinpath(NAME).glob("*.py")) + [HERE / NAME / "py.typed"]:
        yield f"{NAME}/{path.name}", path.read_bytes(), False
    for path in sorted(built.iterdir()):
        yield f"{NAME}/{path.name}", path.read_bytes(), os.access(path, os.X_OK)
    yield f"{info}/METADATA", _metadata(), False
    yield f"{info}/WHEEL", _wheel(TAGS[target]), False


def _add(archive, name, content, program=False):
    # One date for all files, so that the same parts make the same wheel.
    entry = zipfile.ZipInfo(name, (1980, 1, 1, 0, 0, 0))
    entry.external_attr = (stat.S_IFREG | (0o755 if program else 0o644)) << 16
    archive.writestr(entry, content, zipfile.ZIP_DEFLATED)


def build_wheel(wheel_directory, config_settings=None, metadata_directory=None):
    """PEP 517: writes the wheel to a folder, and gives its name."""
    target = _target()
    name = f"{NAME}-{_version()}-py3-none-{TAGS[target]}.whl"
    record = f"{NAME}-{_version()}.dist-info/RECORD"
    rows = []
    with zipfile.ZipFile(Path(wheel_directory) / name, "w") as archive:
        for entry, content, program in _files(target):
            _add(archive, entry, content, program)
            digest = base64.urlsafe_b64encode(hashlib.sha256(content).digest()).rstrip(b"=").decode()
            rows.append(f"{entry},sha256={digest},{len(content)}")
        _add(archive, record, "\n".join(rows + [f"{record},,", ""]).encode())
    return name


def get_requires_for_build_wheel(config_settings=None):
    """PEP 517: nothing but Python."""
    return []


if __name__ == "__main__":
    import sys

    print(build_wheel(sys.argv[1] if len(sys.argv) > 1 else "."))
