# SPDX-License-Identifier: MIT
"""The parts of docs/IN_C.md that are made: code of examples and tests, the bytes of states, and measured figures."""
import textwrap
import tomllib

PAGE = "docs/IN_C.md"
# Code of other files: the language, the file, and how the first and the last line begin.
SHOWN = {
    "arbiter": ("c", "capi/examples/loop.c", "/* Serves what waits", "}"),
    "rust-pass": ("rust", "capi/rust/examples/device.rs", "    /// A pass over", "    }"),
    "rust-work": ("rust", "capi/rust/examples/device.rs", "    /// Executes what arbitration", "    }"),
    "python": ("python", "capi/python/examples/judge.py", "waiting, last", "    judge.pick"),
    "board": ("rust", "crates/nvme_uses/src/tests.rt", "    let mut board", "    );"),
    "front": ("rust", "crates/nvme_front_uses/src/device.rt", "    // The host submits a command", "    }"),
}
# Figures whose rows are shown as they are.
PLAIN = ("worst", "device", "runs", "live")


def shown(sources, language, path, first, last):
    """The code of a file from the first line to the last."""
    lines = sources.lines(path)
    start = next(n for n, line in enumerate(lines) if line.startswith(first))
    length = next(n for n, line in enumerate(lines[start:], 1) if line.startswith(last))
    code = textwrap.dedent("\n".join(lines[start:start + length]))
    return f"```{language}\n{code}\n```\n"


def table(head, rows):
    first, *others = (f"| {' | '.join(row)} |\n" for row in (head, *rows))
    return f"{first}|{'---|' * len(head)}\n{''.join(others)}"


def states(sources):
    """The bytes of each state, by its name there."""
    words = [line.split() for line in sources.lines("crates/nvme_capi/src/version.rt")]
    found = [it for it in words if it[:2] == ["pub", "const"] and it[2].endswith("_BYTES:")]
    return {it[2].removesuffix("_BYTES:"): int(it[5].rstrip(";")) for it in found}


def sizes(sources, layers):
    """The sizes of each layer. That of entries has no state."""
    found = states(sources)
    told = {None: "none", **{name: f"{count:,}" for name, count in found.items()}}
    told["CTRL"] += f", and {found['SLOT']} for each slot"
    rows = [(it["layer"], f"{it['code']:,}", told[it.get("state")], it["stack"]) for it in layers]
    return table(("Layer", "Code and constants", "State", "Most stack of a call"), rows)


def loop(queues, row):
    """A row of the loop, with how many times the instructions by hand the library takes."""
    times = [f"{c / hand:.2f}" for c, hand in zip(row["from_c"], row["by_hand"])]
    return (row["what"], *(", ".join(map(str, it)) for it in (queues, row["by_hand"], row["from_c"], times)))


def made(sources):
    measured = tomllib.loads(sources.text("tools/pages/measured.toml"))
    parts = {name: shown(sources, *it) for name, it in SHOWN.items()}
    parts |= {name: table(measured[name]["head"], measured[name]["rows"]) for name in PLAIN}
    parts["sizes"] = sizes(sources, measured["sizes"]["layers"])
    rows = [loop(measured["loop"]["queues"], it) for it in measured["loop"]["rows"]]
    parts["loop"] = table(("Loop", "Queues", "By hand", "From C", "Times"), rows)
    parts["measured"] = table(("Figures", "Of", "By"), [(it["figures"], it["of"], it["by"]) for it in measured.values()])
    return {f"{PAGE}#{name}": text for name, text in parts.items()}
