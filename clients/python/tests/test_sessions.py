"""Every stored session of the repository: cards of both sizes, records, and racks."""

from __future__ import annotations

import subprocess
from collections import Counter
from pathlib import Path
from typing import List

import pytest
from sessions import CRATES, ROOT, RackSession, answers, load_row, stored_files, stored_forms

PLRUN = ROOT / "target" / "bin" / "plrun"
FILES = list(stored_files())
NAMES = [f"{path.parts[-3]}/{path.name}" for path in FILES]

# How many files have each form of stored output, at the least.
LEAST = {
    "answers of 16": 40,
    "wiring of 16": 20,
    "answers and wiring of 32": 4,
    "rests of 16": 2,
    "surveys of 16": 3,
    "surveys of 32": 2,
    "tallies of 16": 5,
    "record of 16": 1,
}
_seen: Counter = Counter()


def _stdout(path: Path) -> bytes:
    return (path.parents[1] / "stdout").read_bytes()


# Forms that gate_sessions prints in words or rows: a card has no such output.
WORDS = {"explain", "asleep", "rows", "rows-asleep", "check"}


def _only_in_words(path: Path) -> bool:
    """Whether the gate stores nothing of a file but sentences and rows."""
    rows = [row.split() for row in (path.parents[1] / "stdin").read_text(errors="replace").splitlines()]
    forms = {row[2] for row in rows if len(row) == 3 and row[1] == path.name}
    return bool(forms) and forms <= WORDS


STORED = [path for path in FILES if path.parts[-3] != "gate_sessions" or not _only_in_words(path)]


@pytest.mark.parametrize("path", STORED, ids=[f"{path.parts[-3]}/{path.name}" for path in STORED])
def test_stored(path: Path) -> None:
    """What a card prints for a file is in the stored output of its program."""
    forms = stored_forms(path, _stdout(path))
    assert forms, "no form of this run is in the stored output"
    _seen.update(forms)


def test_forms_were_all_seen() -> None:
    """The files above had outputs of every form, so that no form was compared with nothing."""
    few = {form: _seen[form] for form, least in LEAST.items() if _seen[form] < least}
    assert not few


@pytest.mark.skipif(not PLRUN.exists(), reason="target/bin/plrun is not built")
@pytest.mark.parametrize("path", FILES, ids=NAMES)
def test_as_plrun(path: Path) -> None:
    """A card of sixteen cells answers each file as plrun does."""
    done = subprocess.run([PLRUN], input=path.read_bytes(), capture_output=True, timeout=60, check=True)
    assert answers(path, 16) == done.stdout.decode()


def _with_stdin(begins: str) -> List[Path]:
    return [path for path in sorted(CRATES.glob("*/stdin")) if path.read_text(errors="replace").startswith(begins)]


def test_loads() -> None:
    """Stored loads and conversions, given as rows of hex."""
    (given,) = _with_stdin("010001")
    rows, stored = given.read_text().splitlines(), (given.parent / "stdout").read_text().splitlines()
    first = next(i for i, row in enumerate(stored) if row == load_row(rows[0]))
    pairs = [(row, load_row(row), expected) for row, expected in zip(rows, stored[first:]) if expected != "?"]
    compared = [(made, expected) for _, made, expected in pairs if made is not None]
    assert len(compared) > 0.8 * len(rows)
    assert [made for made, _ in compared] == [expected for _, expected in compared]


def test_racks() -> None:
    """Stored calls on racks."""
    (given,) = _with_stdin("rack ")
    calls, stored = given.read_text().splitlines(), (given.parent / "stdout").read_text().splitlines()
    assert len(calls) == len(stored)
    session, compared = RackSession(), 0
    for i, (call, expected) in enumerate(zip(calls, stored), 1):
        if expected == "?":
            continue
        found = session.answer(call)
        if found is not None:
            assert found == expected, f"line {i}: {call}"
            compared += 1
    assert compared > 0.95 * len(calls)
