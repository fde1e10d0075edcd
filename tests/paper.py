# SPDX-License-Identifier: MIT
"""Sweeps whose numbers and pictures a paper may show. `tests/figures` runs them, and docs/FIGURES.md is made from this.

Each figure is one sweep and one picture. The tables have the 99th percentile of the low class, or of each class, in microseconds,
with the interval of 95 % over ten seeds. The device has 4 channels, whose services are exponential with a mean of 80 us, and a
depth of 4 where no other is told; each of three classes asks for a third of the load. The three commands take some three minutes
of a processor. `--format csv -o FILE` beside that keeps the numbers.
"""
import json
import os
from typing import NamedTuple

STORED = f"{os.path.dirname(os.path.realpath(__file__))}/figures.json"
FILE = "examples/sim/three-classes.toml"
LOADS = ("load", ("0.5", "0.7", "0.8", "0.9", "0.95"))
CLASSES = ("name", ("high", "medium", "low"))


class Figure(NamedTuple):
    """What a figure tells, the words of its command that aren't swept, and the keys of its table's lines and columns, with their
    values. Where these are no classes, it is of the low class."""
    name: str
    title: str
    told: str
    words: tuple
    lines: tuple
    columns: tuple

    def swept(self):
        return [it for it in (self.lines, self.columns) if it != CLASSES]

    def sweep(self):
        """The words of its command, but for its picture."""
        sweeps = [word for key, values in self.swept() for word in ("--sweep", f"{key}={','.join(values)}")]
        return ["simulate", FILE, *self.words, *sweeps, "--seeds", "10"]

    def picture(self):
        """The words of its picture, of which the last is the file's name."""
        return [*["--class", "low"] * (len(self.swept()) > 1), "--chart", f"{self.name}.svg"]


FIGURES = (
    Figure(
        "weights",
        "What weights cost the low class",
        "Weights matter the more the higher the load is, since then more commands wait.",
        (),
        ("weights", ("1:1:1", "8:4:2", "64:8:1")),
        LOADS,
    ),
    Figure(
        "bursts",
        "What a burst above the weights does",
        "Nothing: under 8:4:2 bursts of 8 and of 64 have the same numbers to the last digit. In the picture their lines stand "
        "beside one another.",
        (),
        ("burst", ("8", "64")),
        ("load", ("0.7", "0.9")),
    ),
    Figure(
        "depths",
        "What a deep device does",
        "This is at a load of 0.9. Commands that the device holds don't wait for arbitration, so the classes come to be alike.",
        ("--load", "0.9"),
        ("device.depth", ("4", "16", "64")),
        CLASSES,
    ),
)


def stored():
    """What `tests/figures --write` measured: of each figure the numbers by line and column."""
    with open(STORED, encoding="utf-8") as it:
        return json.load(it)
