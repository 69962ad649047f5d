"""Names for addresses, which slots and connectors read."""

from __future__ import annotations

import re
from typing import Dict, Union

_KINDS = {"": 0, "not ": 64, "rise of ": 128, "fall of ": 192}

# Base 0 is always low, so its inverse is high. Document 01 makes its fall high in every tick.
_BASE_0 = {"low": 0, "high": 64, "never": 128, "every tick": 192}

CONNECTORS = tuple(f"BNC{n}" for n in range(1, 9)) + tuple(f"TTL{n}" for n in range(8))
"""The names of the connectors, in the order of the bits of a sample."""


def _names() -> Dict[str, int]:
    bases = {f"cell {n}": n for n in range(1, 33)}
    bases.update((name, 33 + i) for i, name in enumerate(CONNECTORS))
    names = {kind + name: added + base for kind, added in _KINDS.items() for name, base in bases.items()}
    names.update(_BASE_0)
    return names


_ADDRESSES = _names()
_NAMES = {address: name for name, address in _ADDRESSES.items()}
_LOWERED = {name.lower(): address for name, address in _ADDRESSES.items()}


def address(name: str) -> int:
    """The address that a name stands for.

    A name is `cell 1` to `cell 32`, `BNC1` to `BNC8` or `TTL0` to `TTL7`, with `not`, `rise of` or `fall of` before it
    for its inverse and its edges; or `low`, `high`, `never`, `every tick`. Capitals and blanks make no difference.

    >>> address("rise of TTL0"), address("not cell 3"), address("every tick")
    (169, 67, 192)
    """
    if not isinstance(name, str):
        raise TypeError(f"the name of an address is a str, not {type(name).__name__}")
    spaced = re.sub(r"\bcell(?=\d)", "cell ", " ".join(name.lower().split()))
    try:
        return _LOWERED[spaced]
    except KeyError:
        raise ValueError(f"no address has the name {name!r}") from None


def address_name(number: int) -> str:
    """The name of an address, as `address` takes it. Reserved addresses have none.

    >>> address_name(169)
    'rise of TTL0'
    """
    try:
        return _NAMES[number]
    except (KeyError, TypeError):
        raise ValueError(f"no name stands for the address {number!r}: it is reserved, or none from 0 to 255") from None


def place(connector: Union[str, int]) -> int:
    """The place of a connector, by its name or its number."""
    if isinstance(connector, str):
        return address(connector)
    if isinstance(connector, int) and not isinstance(connector, bool):
        return connector
    raise TypeError(f"a connector is given by its name or its place, not by {type(connector).__name__}")
