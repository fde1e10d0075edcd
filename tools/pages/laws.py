# SPDX-License-Identifier: MIT
"""docs/LAWS.md: the laws of each crate, and its public functions with the names of their clauses."""
import itertools
import os
import re
from typing import NamedTuple

from pages.sources import TOP, Sources

HEAD = """# Laws and clauses

A law is a public function that does nothing, so that its contract says what follows from the definitions. A clause is one \
statement of a contract, which the function ensures for all inputs that meet what it requires. `make docs` makes this page \
from the sources: each law with its comment, and each other public function with the first sentence of its own. A clause \
without a name stands as its text, and where that is long, as the definitions that it cites, `.. so ..`. Those of the C \
library have name and text, for readers of its header. Where there is no clause, nothing is proved but what [PROVED.md](PROVED.md#where-to-begin) says of every function; that page also tells where \
to begin.
"""
CLAUSE = re.compile(r" (?=(?:requires|ensures) (?:\w+ )?\{)")
LONGEST_TEXT = 60


class Function(NamedTuple):
    """One as it stands in a file. Without an owner it is free, else a method of that type or trait."""
    owner: str
    name: str
    path: str
    line: int
    says: str
    requires: list
    ensures: list
    is_law: bool


def files_of(crate):
    """The paths of a crate's sources but its tests, that of the crate itself first."""
    names = [f"{at}/{it}" for at, _, names in os.walk(f"{TOP}/crates/{crate}/src") for it in names if it != "tests.rt"]
    paths = [os.path.relpath(it, TOP) for it in names if it.endswith(".rt")]
    return sorted(paths, key=lambda it: (os.path.basename(it) not in ("lib.rt", "main.rt"), it))


def module_of(path):
    """The module of the crate to which a file belongs."""
    return path.split("/")[3].removesuffix(".rt")


def comment(lines, mark):
    """The comment with this mark in the first of these lines, among which attributes may stand."""
    block = itertools.takewhile(lambda it: it.startswith((mark, "#[")), lines)
    return [it.removeprefix(mark).strip() for it in block if it.startswith(mark) and it != mark]


def first_sentence(text):
    return re.split(r"(?<=[^.]\.) (?=[A-Z`(])", text)[0]


def definitions_in(text):
    """The definitions of this repository that a file imports."""
    found = re.findall(r"ghost use Rattle\.nvme_\w+\.specs\.(?!declared)[\w.]+\.\{([^}]*)\}", text)
    return {name.split(" as ")[-1].strip() for names in found for name in names.split(",")}


def told(clause, definitions, is_of_c):
    """A clause by its name, of the C library with its text. Without a name by its text, where that is long shortened to the
    definitions that it cites."""
    head, _, body = clause.partition("{")
    text = body.rstrip("; ").removesuffix("}").strip()
    if is_of_c:
        return f"{head.partition(' ')[2].strip()}`: `{text}".removeprefix("`: `")
    unbound = re.sub(r"\([\w ]+ : [^()]+\)", "", text)
    cited = [it for it in dict.fromkeys(re.findall(r"\w+", unbound)) if it in definitions]
    short = " .. ".join(["", *cited, ""]).strip() if len(text) > LONGEST_TEXT and cited else text
    return head.partition(" ")[2].strip() or short


def ends(line):
    """Whether the head of a function ends with this line of it."""
    return line.endswith("};") if line.startswith(("requires ", "ensures ")) else line.endswith(("{", "{}", ";"))


def function_at(path, lines, at, owner, definitions):
    """The function that begins at this line."""
    last = next(i for i in range(at, len(lines)) if ends(lines[i]))
    clauses = CLAUSE.split(" ".join(lines[at:last + 1]).removesuffix("{}").removesuffix("{"))[1:]
    is_of_c = 'extern "C"' in lines[at]
    requires, ensures = (
        [told(it, definitions, is_of_c) for it in clauses if it.startswith(kind)] for kind in ("requires", "ensures")
    )
    name = re.search(r"\bfn (\w+)", lines[at])[1]
    says = " ".join(reversed(comment(reversed(lines[:at]), "///")))
    return Function(owner, name, path, at + 1, says, requires, ensures, lines[last].endswith("{}") and bool(ensures))


def owner_from(owner, line):
    """The type or trait in whose block this line stands, by that of the line before."""
    block = re.match(r"(?:impl(?:<[^>]*>)?|pub trait) (\w+)", line)
    return block[1] if block and " for " not in line else "" if block or line == "}" else owner


def functions_in(path):
    """The functions of a file that are public, and those of its public traits."""
    text = Sources.text(path)
    lines, definitions = text.splitlines(), definitions_in(text)
    traits = set(re.findall(r"^pub trait (\w+)", text, re.M))
    owners = [*itertools.accumulate(lines, owner_from, initial="")][1:]
    begun = [re.match(r' *(pub )?(?:const |extern "C" )?fn \w', it) for it in lines]
    stripped = [it.strip() for it in lines]
    return [function_at(path, stripped, at, owner, definitions) for at, owner in enumerate(owners)
            if begun[at] and (begun[at][1] or owner in traits)]


def exports(crate):
    """Whether the crate exports a name of a module, by both. The C library exports what has the names of C."""
    if crate == "nvme_capi":
        return lambda module, name: name.startswith("nvmearb_")
    lib = Sources.text(files_of(crate)[0])
    opened = {"lib", *re.findall(r"^pub mod (\w+);", lib, re.M)}
    found = re.findall(r"^pub use (\w+)::(?:\w+::)*(?:\{([^}]*)\}|(\w+));", lib, re.M)
    given = {(module, name.split(" as ")[0].strip()) for module, names, one in found for name in (names or one).split(",")}
    return lambda module, name: module in opened or (module, name) in given


def functions_of(crate):
    """The functions that the crate exports, in the order of its files."""
    is_exported, paths = exports(crate), files_of(crate)
    defined = [(path, re.findall(r"^pub (?:struct|enum|trait) (\w+)", Sources.text(path), re.M)) for path in paths]
    types = {name for path, names in defined for name in names if is_exported(module_of(path), name)}
    return [it for path in paths for it in functions_in(path)
            if (it.owner in types if it.owner else is_exported(module_of(path), it.name))]


def line_of(function):
    """What the page tells of a function."""
    said = function.says if function.is_law else first_sentence(function.says)
    name = f"{function.owner}::{function.name}" if function.is_law and function.owner else function.name
    kinds = ("Requires", function.requires), ("Ensures", function.ensures)
    if function.name.startswith("nvmearb_"):
        return "\n  - ".join([f"- [`{name}`](../{function.path}#L{function.line}): {said}",
                              *(f"`{it}`" for it in [*function.requires, *function.ensures])])
    clauses = [f"{kind} {', '.join(f'`{it}`' for it in names)}." for kind, names in kinds if names]
    return " ".join([f"- [`{name}`](../{function.path}#L{function.line}): {said}", *clauses])


def listed(title, functions):
    return "".join(["\n", f"{title}\n\n", *(f"{line_of(it)}\n" for it in functions)]) if functions else ""


def crate_part(crate):
    """What the page tells of a crate: its laws, its functions, and those of each of its types."""
    functions = functions_of(crate)
    laws = [it for it in functions if it.is_law]
    others = [it for it in functions if not it.is_law]
    owners = dict.fromkeys(it.owner for it in sorted(others, key=lambda it: bool(it.owner)))
    head = first_sentence(" ".join(comment(Sources.lines(files_of(crate)[0]), "//!")))
    specs = f" [Definitions](../crates/{crate}/specs)" if os.path.exists(f"{TOP}/crates/{crate}/specs") else ""
    titles = {owner: f"**`{owner}`**" if owner else "**Functions**" for owner in owners}
    parts = [listed(title, [it for it in others if it.owner == owner]) for owner, title in titles.items()]
    return "".join([f"\n## {crate}\n\n{head}{specs}\n", listed("**Laws**", laws), *parts])


def made(sources):
    lines = [it for it in sources.lines("crates.txt") if it and not it.startswith("#")]
    return {"docs/LAWS.md": HEAD + "".join(crate_part(it.partition(":")[0].split()[0]) for it in lines)}
