# SPDX-License-Identifier: MIT
"""docs/THEORY.md and docs/FIGURES.md: what tests/theory and tests/figures run, and what they measured."""
import shlex

import queueing
import paper

THEORY = """# Against queueing theory

`tests/theory` compares [the simulation](SIMULATION.md) with formulas. `make docs` makes this page from `tests/queueing.py`, \
which has the simulation file and the formula of each row, and from `tests/theory.json`, which has what the test measured.

{intro}

{measured}## Without chance

In these rows each command of the log has to be what is wanted of it. Each is one run of each of its files, of 5,000 to 40,000 \
commands.

{exact}"""
FIGURES = """# Figures of sweeps

`make docs` makes this page from `tests/paper.py`, and from `tests/figures.json`, which has what `tests/figures` measured by \
these commands of [the simulation](SIMULATION.md). That test also compares the numbers by weights, up to a load of 0.9, and \
those by depth with another simulator's.

{intro}

{figures}"""


def paragraphs(doc):
    """Those of a docstring, each as one line."""
    return [" ".join(it.split()) for it in doc.split("\n\n")]


def intro_of(module):
    return "\n\n".join(paragraphs(module.__doc__)[1:])


def table(head, lines):
    return "".join(f"| {' | '.join(it)} |\n" for it in (head, *lines)).replace("\n", f"\n|{'---|' * len(head)}\n", 1)


def title_of(group):
    return group.__name__.replace("_", " ").capitalize()


def measured(group, told):
    """The rows of a group, each with its formula and what was measured of it."""
    lines = [(row.name, f"{row.formula:.3f}", told[row.name]) for row in group() if row.name in told]
    return f"## {title_of(group)}\n\n{paragraphs(group.__doc__)[0]}\n\n{table(('What', 'Formula', 'Measured'), lines)}\n"


def exact(group, told):
    lines = [(row.name, told[row.name]) for row in group()]
    return f"### {title_of(group)}\n\n{paragraphs(group.__doc__)[0]}\n\n{table(('What', 'Exactly'), lines)}"


def figure_of(figure, told):
    """A figure's command, and its table."""
    (key, lines), (_, columns) = figure.lines, figure.columns
    command = shlex.join(["nvmearb", *figure.sweep(), *figure.picture()])
    head = (key.split(".")[-1].capitalize(), *(it.capitalize() for it in columns))
    cells = table(head, [(line, *(told[f"{line}, {it}"] for it in columns)) for line in lines])
    return f"## {figure.title}\n\n{figure.told}\n\n```sh\n{command}\n```\n\n{cells}"


def made(_):
    told = queueing.stored()
    theory = THEORY.format(
        intro=intro_of(queueing),
        measured="".join(measured(it, told) for it in queueing.MEASURED),
        exact="\n".join(exact(it, told) for it in queueing.EXACT),
    )
    numbers = paper.stored()
    figures = FIGURES.format(
        intro=intro_of(paper),
        figures="\n".join(figure_of(it, numbers[it.name]) for it in paper.FIGURES),
    )
    return {"docs/THEORY.md": theory, "docs/FIGURES.md": figures}
