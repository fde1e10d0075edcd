# SPDX-License-Identifier: MIT
"""What tests/simulate, tests/replays and tests/sweeps share: simulation files, runs of `simulate` over them, and its pictures."""
import csv
import io
import re
from xml.etree import ElementTree

from cases import FOLDER, nvmearb

# Three classes, a queue of each kind of arrivals, all operations, a striped device that pauses.
MIXED = """version = 1
mechanism = "weighted"
burst = 4
weights = { high = 4, medium = 2, low = 1 }
[simulation]
seed = 7
commands = 5000
warm_up = 500
[device]
channels = 4
depth = 8
placing = "striped"
stripe = 64
read = { exponential = "80us" }
write = { usual = "20us", rare = "2ms", one_in = 100 }
flush = "10us"
pauses = { every = "50ms", for = "2ms" }
[[queue]]
class = "urgent"
arrivals = { every = "1ms" }
[[queue]]
class = "high"
arrivals = { poisson = 10000 }
mix = { read = 7, write = 3 }
[[queue]]
class = "medium"
arrivals = { bursts = { poisson = "50us", on = "2ms", off = "3ms" } }
mix = { read = 1, write = 1, flush = 1 }
[[queue]]
class = "low"
arrivals = { closed = 4, think = "100us" }
offsets = "sequential"
"""

ROUND_ROBIN = MIXED.replace('mechanism = "weighted"', 'mechanism = "round-robin"').replace("weights", "# weights")

# One channel that takes 100 us for each command, of which one comes each 150 us: nothing ever waits.
REGULAR = """version = 1
[simulation]
commands = 10
[device]
channels = 1
read = "100us"
[[queue]]
arrivals = { every = "150us" }
"""

# Eight commands out, and a channel that runs each for 100 us.
CLOSED = """version = 1
[simulation]
commands = 1000
warm_up = 100
[device]
channels = 1
read = "100us"
[[queue]]
arrivals = { closed = 8 }
"""

NONE_LEFT = "nvmearb: note: the warm-up of 1 commands leaves none of 1 for the answer\n"

OVERLOAD = re.compile(
    r"nvmearb: note: .* (can do [\d.]+: ever more commands wait|come than the device can run: ever more wait)\n"
)

SVG = "{http://www.w3.org/2000/svg}"


def at(name):
    return f"{FOLDER}/{name}"


def saved(name, text):
    with open(at(name), "w", encoding="utf-8") as it:
        it.write(text)
    return at(name)


def text_of(name):
    with open(at(name), "rb") as it:
        return it.read()


def without_overload(errors):
    """What is told beside that a device is overloaded, of which a row of its own asks."""
    return OVERLOAD.sub("", errors)


def simulated(line, text=MIXED, status=0, errors=None):
    """The output of `simulate` with these words over this text, which ends with this status and these errors. A run that has
    an answer tells these too, and by default none."""
    left = nvmearb("simulate", *line.split(), stdin=text if isinstance(text, bytes) else text.encode())
    told = left.errors.decode(errors="replace")
    told = told if errors else without_overload(told)
    assert left.status == status and (errors is None or told == errors), f"{line}: status {left.status}: {told}"
    assert status or errors or not told, f"{line}: {told}"
    assert not status or not left.output and left.errors, f"{line}: an answer, or no fault"
    return left.output


def table(text):
    return list(csv.DictReader(io.StringIO(text.decode())))


class Picture:
    """What a picture says: its panels as left, top, bottom and right edge, its curves, its marks by their tips, its texts."""

    def __init__(self, name):
        top = ElementTree.fromstring(text_of(name))
        assert top.tag == f"{SVG}svg", top.tag
        paths = [it.get("d") for it in top.iter(f"{SVG}path")]
        edges = [re.fullmatch(r"M(\d+) (\d+)V(\d+)H(\d+)", it) for it in paths]
        self.panels = [[int(edge) for edge in it.groups()] for it in edges if it]
        self.curves = [(it.find(f"{SVG}title").text, self.points(it.get("d"))) for it in top.iter(f"{SVG}path") if len(it)]
        self.marks = {it.find(f"{SVG}title").text: (float(it.get("cx")), float(it.get("cy"))) for it in top.iter(f"{SVG}circle")}
        bars = [re.match(r"M([\d.]+) ([\d.]+)V([\d.]+)M", it) for it in paths]
        self.bars = [tuple(map(float, it.groups())) for it in bars if it]
        self.texts = [it.text or "" for it in top.iter(f"{SVG}text")]

    @staticmethod
    def points(path):
        return [(kind, float(x), float(y)) for kind, x, y in re.findall(r"([ML])([\d.]+) ([\d.]+)", path)]
