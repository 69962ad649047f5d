"""Samples in sequences and arrays, and what `run` gives for them."""

from __future__ import annotations

import subprocess
import sys
from array import array

import pytest

from trigger_card import Card

SAMPLES = [0, 0x0100, 0x0100, 0xFFFF, 0]


def follower() -> Card:
    """BNC1 follows TTL0, one tick late."""
    card = Card()
    card.wire("M E=33\n36CCA Z=41")
    return card


DRIVEN = [0, 0, 1, 1, 1]


@pytest.mark.parametrize(
    "samples", [SAMPLES, tuple(SAMPLES), iter(SAMPLES), array("H", SAMPLES), memoryview(array("H", SAMPLES))]
)
def test_sequences(samples: object) -> None:
    """Any sequence gives arrays of Python's own."""
    run = follower().run(samples)
    assert [type(row) for row in run] == 4 * [array]
    assert list(run.driven) == DRIVEN and list(run.levels) == [0, 0x0100, 0x0101, 0xFF01, 1]


def test_none() -> None:
    """No samples make no ticks."""
    card = follower()
    assert [len(row) for row in card.run([])] == [0, 0, 0, 0] and card.tallies().ticks == 0


def test_samples_stay() -> None:
    """The samples are read where they are, and are not changed."""
    samples = array("H", SAMPLES)
    follower().run(samples)
    assert list(samples) == SAMPLES


def test_numpy() -> None:
    """An array of numpy gives arrays of numpy: also one that is read only, and one with gaps."""
    numpy = pytest.importorskip("numpy")
    samples = numpy.array(SAMPLES, dtype=numpy.uint16)
    fixed = samples.copy()
    fixed.setflags(write=False)
    gaps = numpy.repeat(samples, 2)[::2]
    for given in (samples, fixed, gaps):
        run = follower().run(given, attached=numpy.full(5, 0xFFFF, dtype=numpy.uint16))
        assert [row.dtype.name for row in run] == ["uint16", "uint32", "uint32", "uint16"]
        assert run.driven.tolist() == DRIVEN
    assert len(follower().run(numpy.array([], dtype=numpy.uint16)).driven) == 0
    assert follower().tick(samples[1]).levels == 0x0100
    for other in (numpy.array(SAMPLES), samples.astype(float), samples.reshape(5, 1), samples.astype(">u2")):
        with pytest.raises(TypeError):
            follower().run(other)


def test_numpy_is_not_needed() -> None:
    """The package does not import numpy by itself."""
    code = "import sys, trigger_card; trigger_card.Card().run([1, 2]); sys.exit('numpy' in sys.modules)"
    try:
        done = subprocess.run([sys.executable, "-c", code], check=False)
    except OSError as error:
        pytest.skip(f"this Python runs under an emulator, and starts no other: {error}")
    assert done.returncode == 0
