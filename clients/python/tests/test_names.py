"""Names of addresses, words of refusals, the picture, and the version."""

from __future__ import annotations

import os
import re
import shutil
import subprocess
from pathlib import Path

import pytest
from sessions import ROOT

import trigger_card
from trigger_card import CONNECTORS, RULES, Card, Rack, address, address_name

PLDRAW = shutil.which("pldraw", path=str(ROOT / "target" / "bin"))


def test_every_address() -> None:
    """Each address that a card takes has a name that stands for it, and the others are refused."""
    for cells in (16, 32):
        card = Card(cells)
        card.wire("M E=33")
        for n in range(256):
            reserved = not (n % 64 == 0 or 1 <= n % 64 <= cells or 33 <= n % 64 <= 48)
            try:
                card.line(f"36CCA Z={n}")
            except trigger_card.Refused as refused:
                assert reserved and refused.number == 11
            else:
                assert not reserved and address(address_name(n)) == n


def test_names() -> None:
    """The names that the manual uses, in any writing."""
    assert [address(name) for name in ("low", "high", "never", "every tick")] == [0, 64, 128, 192]
    assert [address(name) for name in ("cell 3", "CELL3", " not  cell 3 ", "fall of bnc8")] == [3, 3, 67, 232]
    assert [address(name) for name in CONNECTORS] == list(range(33, 49))


def test_rules() -> None:
    """There are words for every number that the header names."""
    header = (ROOT / "clients" / "c" / "trigger.h").read_text()
    numbers = [int(n) for n in re.findall(r"TRIGGER_REFUSED_[A-Z0-9_]+ = (\d+)", header)]
    assert numbers == list(RULES) and len(set(RULES.values())) == len(RULES)


def test_version() -> None:
    """The package has the version of the repository."""
    assert trigger_card.__version__ == (ROOT / "VERSION").read_text().strip()


def _ticked() -> Card:
    card = Card()
    card.wire("M E=1\n36CCA Y=14\n36CCA Z=2\n36CCB X=41 Y=192\nM E=35\n36CCA Z=1")
    for sample in (0x0100, 0, 0, 0):
        card.tick(sample)
    card.run([0x0100, 0], full=True)
    return card


@pytest.mark.skipif(PLDRAW is None, reason="target/bin/pldraw is not built")
def test_picture(monkeypatch: pytest.MonkeyPatch) -> None:
    """The picture of a card is what pldraw draws of the same lines and ticks."""
    monkeypatch.setenv("TRIGGER_CARD_PLDRAW", str(PLDRAW))
    lines = "M E=1\n36CCA Y=14\n36CCA Z=2\n36CCB X=41 Y=192\nM E=35\n36CCA Z=1\n"
    lines += "".join(f"T 0 {sample} ffff Q\n" for sample in ("0100", "0000", "0000", "0000"))
    lines += "T 0 0100 ffff F\nT 0 0000 ffff F\n"
    done = subprocess.run([PLDRAW], input=lines.encode(), capture_output=True, timeout=60, check=True)
    card = _ticked()
    assert card._repr_svg_() == card.copy()._repr_svg_() == done.stdout.decode()
    loaded = Card.load(card.record())
    assert loaded._repr_svg_() is None
    loaded.tick(0)
    assert "<svg" in loaded._repr_svg_()
    card.run([0] * 10_000)
    assert card._repr_svg_() is None and Rack(1).card(1)._repr_svg_() is None


@pytest.mark.skipif(PLDRAW is None, reason="target/bin/pldraw is not built")
def test_what_is_kept(monkeypatch: pytest.MonkeyPatch) -> None:
    """Ticks that no line can ask for are not in the picture, and a card does not keep lines for ever."""
    monkeypatch.setenv("TRIGGER_CARD_PLDRAW", str(PLDRAW))
    card, other = _ticked(), _ticked()
    for _ in range(400):
        assert not other.tick(0, clock=200).ran
    assert card._repr_svg_() == other._repr_svg_()
    for _ in range(10_000):
        card.line("W E")
    assert card._repr_svg_() is None
    card.power_up(card.record())
    card.tick(0)
    assert "<svg" in card._repr_svg_()


def test_no_picture(monkeypatch: pytest.MonkeyPatch, tmp_path: Path) -> None:
    """Without pldraw, or with one that fails, there is no picture, and nothing is raised."""
    monkeypatch.setenv("PATH", str(tmp_path))
    card = _ticked()
    for program in ("", str(tmp_path / "none"), str(tmp_path), shutil.which("false", path=os.defpath)):
        monkeypatch.setenv("TRIGGER_CARD_PLDRAW", program)
        assert card._repr_svg_() is None
