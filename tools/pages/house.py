# SPDX-License-Identifier: MIT
"""The crates by the groups of crates.txt: their table in docs/ARCHITECTURE.md, and their picture, docs/crates.svg. And the
decisions that stand at the heads of files, in docs/DECISIONS.md."""
import glob
import itertools
import os
import textwrap
from typing import NamedTuple

from pages.sources import TOP

GREY, YELLOW, ORANGE = ("#f6f8fa", "#8c959f"), ("#fff8c5", "#9a6700"), ("#fff1e5", "#bc4c00")
GREEN, BLUE, PURPLE = ("#dafbe1", "#1a7f37"), ("#ddf4ff", "#0969da"), ("#fbefff", "#8250df")
# The rows of the picture from above: where the box of each group begins and ends, and its colours. Each group uses only
# groups in rows below, and a straight line has to lead there beside the boxes between.
ROWS = (
    {
        "The C library": (20, 190, ORANGE),
        "The program": (210, 870, GREY),
        "Examples to copy, and measurements": (890, 1180, GREY),
    },
    {"Simulation files and sweeps": (210, 700, BLUE), "The front of a run": (720, 1180, GREEN)},
    {
        "Simulation in virtual time": (210, 440, BLUE),
        "Judges and traces": (460, 640, PURPLE),
        "Workload files": (660, 900, GREY),
    },
    {"The controller and its log": (20, 1180, YELLOW)},
    {"What the specification says": (20, 780, YELLOW), "Texts and versions": (800, 1180, GREY)},
)
# The width of a letter of a crate's name, the height of a line, and the room between boxes, in pixels.
LETTER, LINE, GAP = 7.2, 19, 22
CAPTION = (
    "The numbers in a box are those of the groups that it uses. No arrow leads to the lowest row, nor where others lead too.",
    "Dark: what is built, the C library and programs.",
)
# The files whose heads may tell decisions.
DECIDING = ("crates/*/src/**/*.rt", "capi/**/*.[ch]", "tools/*", "tests/*")


class Crate(NamedTuple):
    """A crate: what it uses, what is built of it where that is a product, and what it says of itself."""
    name: str
    uses: list
    product: str
    says: str


class Box(NamedTuple):
    """A group as a box of the picture, with its crates in lines of names."""
    title: str
    uses: str
    left: int
    right: int
    top: int
    height: int
    colours: tuple
    lines: list


def first_sentence(sources, name, root):
    """The first sentence of the comment at the head of a crate."""
    head = itertools.takewhile(lambda it: it.startswith("//!"), sources.lines(f"crates/{name}/src/{root}.rt"))
    return " ".join(it.removeprefix("//! ") for it in head).partition(". ")[0].rstrip(".") + "."


def crate_of(sources, line):
    head, _, names = line.partition(":")
    name = head.split()[0]
    is_program = os.path.exists(f"{TOP}/crates/{name}/src/main.rt")
    product = "C library" if "staticlib" in head else "program" if is_program else ""
    return Crate(name, names.split(), product, first_sentence(sources, name, "main" if is_program else "lib"))


def groups_of(sources):
    """The groups of crates.txt by their names, each with its crates."""
    lines = sources.lines("crates.txt")
    starts = [n for n, line in enumerate(lines) if n and line.startswith("# ")]
    spans = zip(starts, [*starts[1:], None])
    return {lines[start][2:]: [crate_of(sources, it) for it in lines[start + 1:end]] for start, end in spans}


def uses_of(groups):
    """The other groups that each group uses, in their order."""
    home = {crate.name: name for name, crates in groups.items() for crate in crates}
    used = {name: {home[it] for crate in crates for it in crate.uses if it in home} for name, crates in groups.items()}
    return {name: [it for it in groups if it in used[name] and it != name] for name in groups}


def below(name, uses):
    """All groups on which a group rests."""
    return set(uses[name]).union(*(below(it, uses) for it in uses[name]))


def arrows_of(uses):
    """The uses that don't follow from others, but for those of the lowest row."""
    pairs = [(name, it) for name, used in uses.items() for it in used if it not in ROWS[-1]]
    return [(name, it) for name, it in pairs if not any(it in below(other, uses) for other in uses[name])]


def told_uses(groups, uses, name):
    return f"uses {', '.join(str([*groups].index(it) + 1) for it in uses[name]) or 'none'}"


def table(groups, uses):
    """The crates, each with what it says of itself, below the groups with the numbers of those that they use."""
    rows = []
    for number, (name, crates) in enumerate(groups.items(), 1):
        rows.append((f"**{number}. {name}**", told_uses(groups, uses, name)))
        rows += [(f"`{it.name}`" + f" ({it.product})" * bool(it.product), it.says) for it in crates]
    return "| Crate | What it is |\n|---|---|\n" + "".join(f"| {left} | {right} |\n" for left, right in rows)


def row_of(groups, uses, row, top):
    """The boxes of a row. They have one height."""
    boxes = []
    for name, (left, right, colours) in row.items():
        names = "  ".join(it.name for it in groups[name])
        lines = textwrap.wrap(names, int((right - left - 24) / LETTER), break_long_words=False)
        title = f"{[*groups].index(name) + 1}. {name}"
        boxes.append(Box(title, told_uses(groups, uses, name), left, right, top, 0, colours, lines))
    height = 46 + LINE * max(len(it.lines) for it in boxes)
    return [it._replace(height=height) for it in boxes]


def boxes_of(groups, uses):
    """The boxes of the picture by the names of their groups."""
    boxes, top = {}, GAP
    for row in ROWS:
        placed = row_of(groups, uses, row, top)
        boxes |= dict(zip(row, placed))
        top += placed[0].height + GAP
    assert boxes.keys() == groups.keys(), f"ROWS doesn't place {boxes.keys() ^ groups.keys()}"
    return boxes


def arrow(boxes, name, used):
    """A straight line from a box to one below it, beside all between."""
    upper, lower = boxes[name], boxes[used]
    between = [it for it in boxes.values() if upper.top < it.top < lower.top]
    ways = [
        x for x in range(max(upper.left, lower.left) + 10, min(upper.right, lower.right), 10)
        if not any(it.left - 10 < x < it.right + 10 for it in between)
    ]
    assert ways, f"ROWS leaves no way from {name} to {used}"
    return f"M{ways[len(ways) // 2]} {upper.top + upper.height}V{lower.top}"


def text(x, y, size, said, style=""):
    return f'<text x="{x:g}" y="{y:g}" font-size="{size}"{style}>{said}</text>\n'


def label(x, y, line, name):
    """A dark label over a name of a line."""
    at, width = x + LETTER * f" {line} ".index(f" {name} "), LETTER * len(name)
    drawn = f'<rect x="{at - 6:g}" y="{y - 13}" width="{width + 12:g}" height="18" rx="9" fill="#24292f"/>\n'
    return drawn + text(at, y, 12, name, f' textLength="{width:g}" fill="#ffffff"')


def names_of(box, products):
    """The names of a box, and labels over those of products."""
    lines = [(box.left + 12, box.top + 56 + LINE * n, line) for n, line in enumerate(box.lines)]
    names = "".join(text(x, y, 12, line, f' textLength="{LETTER * len(line):g}"') for x, y, line in lines)
    return names + "".join(label(x, y, line, it) for x, y, line in lines for it in line.split() if it in products)


def drawn_box(box):
    fill, stroke = box.colours
    size = f'x="{box.left}" y="{box.top}" width="{box.right - box.left}" height="{box.height}"'
    said = text(box.left + 12, box.top + 20, 13, box.title, ' font-weight="bold"')
    uses = text(box.left + 12, box.top + 36, 11, box.uses)
    return f'<rect {size} rx="5" fill="{fill}" stroke="{stroke}"/>\n{said}{uses}'


def picture(groups, uses):
    boxes = boxes_of(groups, uses)
    products = [it.name for crates in groups.values() for it in crates if it.product]
    end = max(it.top + it.height for it in boxes.values())
    lines = "".join(f'<path d="{arrow(boxes, *it)}"/>\n' for it in arrows_of(uses))
    caption = "".join(text(20, end + 24 + 16 * n, 11.5, line) for n, line in enumerate(CAPTION))
    return f"""<svg xmlns="http://www.w3.org/2000/svg" viewBox="0 0 1200 {end + 56}" width="1200" height="{end + 56}" role="img" \
aria-labelledby="title">
<title id="title">The crates of nvmearb by groups, and which groups use which</title>
<defs><marker id="tip" viewBox="0 0 8 8" refX="7" refY="4" markerWidth="5" markerHeight="5" orient="auto">\
<path d="M0 0 8 4 0 8z" fill="#57606a"/></marker></defs>
<rect x="0.5" y="0.5" width="1199" height="{end + 55}" rx="12" fill="#ffffff" stroke="#d0d7de"/>
<g fill="#1f2328" font-family="sans-serif">
{"".join(map(drawn_box, boxes.values()))}</g>
<g fill="#1f2328" font-family="monospace" xml:space="preserve">
{"".join(names_of(it, products) for it in boxes.values())}</g>
<g fill="none" stroke="#57606a" stroke-width="1.5" marker-end="url(#tip)">
{lines}</g>
<g fill="#424a53" font-family="sans-serif">
{caption}</g>
</svg>
"""


def decided_in(lines):
    """The decisions in the comments of a file, each a paragraph."""
    comments = [it.lstrip("/!#* ").rstrip() if it.startswith(("//", "# ", " *")) else "" for it in lines]
    said = [" ".join(it) for is_said, it in itertools.groupby(comments, bool) if is_said]
    decided = [it.removeprefix("Decided: ") for it in said if it.startswith("Decided: ")]
    return [it[0].upper() + it[1:] for it in decided]


def decisions(sources):
    """A line for each file whose head tells decisions."""
    found = [path for pattern in DECIDING for path in sorted(glob.glob(pattern, root_dir=TOP, recursive=True)) if "/out/" not in path]
    told = [(path, decided_in(sources.lines(path))) for path in found if os.path.isfile(f"{TOP}/{path}")]
    return "".join(f"- [`{path.removeprefix('crates/')}`](../{path}): {' '.join(said)}\n" for path, said in told if said)


def made(sources):
    groups = groups_of(sources)
    uses = uses_of(groups)
    return {
        "docs/ARCHITECTURE.md#crates": table(groups, uses),
        "docs/crates.svg": picture(groups, uses),
        "docs/DECISIONS.md#modules": decisions(sources),
    }
