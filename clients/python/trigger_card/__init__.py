"""The trigger card in Python: a card or a rack of cards, wired by lines, ticked, saved and loaded.

>>> from trigger_card import Card
>>> card = Card(cells=16)
>>> card.line("M E=33")
>>> card.line("W E")
33
"""

from __future__ import annotations

from importlib.metadata import PackageNotFoundError, version

from .addresses import CONNECTORS, address, address_name
from .card import Answer, Card, Closed, Run, Survey, Tallies, convert
from .rack import Rack
from .refusals import RULES, Refused

try:
    __version__ = version("trigger-card")
except PackageNotFoundError:
    __version__ = "0+not.installed"

__all__ = [
    "CONNECTORS",
    "RULES",
    "Answer",
    "Card",
    "Closed",
    "Rack",
    "Refused",
    "Run",
    "Survey",
    "Tallies",
    "address",
    "address_name",
    "convert",
]
