# SPDX-License-Identifier: MIT
"""docs/KEYS.md: the keys of files and the fields of lines by the program's help; and what definitions and comments in crates/ say
of the longer workload file, logs, entries, checks, statuses, rules, numbers and faults. And a summary for docs/FORMATS.md."""
import re

from pages.sources import TOP

HEAD = """# Keys, fields, checks and rules

`make docs` makes this page from what the program prints, and from definitions and comments in `crates/`. \
[FORMATS.md](FORMATS.md) has an example of each file, and what holds of several keys together. [WORDS.md](WORDS.md) has options. "Profile" marks a choice that the specification leaves.

{contents}

"""
BODY = """## Keys of a short workload file

{short}## Keys of a workload file

Those of the form that `nvmearb expand` writes, in the order in which they are checked ([more](FORMATS.md#workload-file)).

{workload}## Keys of a simulation file

{simulation}## Fields of a trace

{trace}## Fields of a log

The first field of an event is its kind ([more](FORMATS.md#log)).

{log}## Rules of a trace

What `nvmearb check --spec` asks ([more](FORMATS.md#check-of-a-trace)).

{picks}
## Rules of a log

What `nvmearb audit` asks. The sections are those of the Base Specification ([more](FORMATS.md#audit-of-a-log)).

{rules}## Fields of entries

Numbers are little endian ([more](FORMATS.md#submission-entry-64-bytes)).

{entries}## Checks of admin commands

The first check that a command fails gives its status (the order is the profile's). Checks say what has to be. The sections are \
those of the Base Specification ([more](FORMATS.md#admin-checks)).

{checks}## Statuses

A status is written `sct/sc`, with sc in hexadecimal. The last column is Do Not Retry where a controller of the C library \
answers; a device chooses it in its answers ([more](FORMATS.md#completion-entry-16-bytes)).

{statuses}## Numbers of a simulation

Names that end with `_ps` are picoseconds ([more](FORMATS.md#answer-of-a-simulation)).

{numbers}## Faults of lines

`..` stands for a name or a number ([more](FORMATS.md#faults)).

{faults}"""
# The topics of the help, what FORMATS.md calls their files, and an example that the help doesn't have.
TOPICS = {
    "short": ("workload", "short-workload-file", "short/delete-under-load.toml"),
    "simulation": ("simulation", "simulation-file", "sim/three-classes.toml"),
    "trace": ("trace", "trace", ""),
}
LONG_EXAMPLE = "delete-three-waiting.toml"
SUMMARY = "run examples/short/three-weights.toml --summary"
# The columns of a part of the help that has keys in its second one.
ITEMS = {"An item of admin, by op": ["Item", "Keys", "Range", "Example"]}
# Values of a workload file that are no numbers.
VALUES = {
    "mechanism": '"round-robin", "weighted"',
    "namespaces": "at most 16 sizes, {}",
    "submission": "1 to 65 tables",
    "completion": "1 to 65 tables",
    "script": "an array of tables",
}
# What is told of fields that have no comment, or one on how the program keeps them.
FIELDS = {
    "reserved": "Reserved, always 0 (profile).",
    "never_set": "CRD, More (30) and Do Not Retry (31), always 0 (profile).",
    "sc": "The status code.",
    "sct": "The status code type.",
    "operation": "`read`, `write` or `flush`.",
    "share": "Their share of all commands, 0 to 1, rounded to six places.",
}
ENTRY, WORKLOAD, AUDIT = "crates/nvme_entry", "crates/nvme_workload", "crates/nvme_audit_text/src"
# Files with constants, and those with statuses.
CONSTANTS = ("crates/nvme_admin/src/bounds.rt", "crates/nvme_arbiter/src/limits.rt")
STATUSES = ("crates/nvme_entry/src/status.rt", "crates/nvme_placing/src/placement.rt")
CODES = ("crates/nvme_entry/specs/Status.antt", "crates/nvme_admin/specs/Placing.antt")
# Definitions of checks in the order in which they are made, and when.
WHERE = {"status_over t": "", "placing_rows_of p": ", where queues may lie anywhere", "rows_of t": ""}
# Who has to keep rules, the enumeration of these, and the functions that tell their names and sections.
SIDES = (("controller", "Rule", "rule_name", "section_of"), ("host", "Breach", "breach_name", "section_of_breach"))
PICK_RULES = "crates/nvme_arbiter/src/specified.rt"
# Faults that only a list of requests of one's own has: those of a file are sorted.
NEVER_OF_A_FILE = ("TooEarly",)
# Files whose lines may be at fault.
LINES = {
    "trace": "crates/nvme_trace/src/fault.rt",
    "log": f"{AUDIT}/fault.rt",
    "replayed file": "crates/nvme_replay/src/fault.rt",
}
# A number as it is read: the key, and the default, where there is one, with the least and the greatest.
READ = re.compile(r"(?:whole|number_at|number_or) \w+ key\.(\w+) ((?:\w+ ){2,3})(?:table|d)$", re.M)
# A variant: its comment, the text of its fault, and its name.
VARIANT = re.compile(r'((?: {4}///.*\n)+)(?: {4}#\[error\("(.*)"(?:, .*)?\)\]\n)? {4}(\w+)')
# The variants of an arm, and the text that they stand for.
ARM = re.compile(r'([^"=]*?)=>[\s{]*"((?:[^"\\]|\\.)*)"')
# A field of a structure, with its comment.
MEMBER = re.compile(r"((?: {4}///.*\n)*) {4}pub (\w+):")
# A comment of a definition, and the rows of checks below it, each of which ends with the status of what fails it.
CHECK = re.compile(r"-- (.*)((?:\n *(?:∷ )?row .*)+)")
# Bits of a command dword, and the definition that takes them.
BITS = re.compile(r"-- (?:the )?(.*?)(?: of an Abort|, .*?)?: bits? (\S+ of [^.,\n]*).*\n.*?(\w+_of) :")
STATUS = re.compile(r"/// (?:.*, )?(.*)\.\n *pub const (\w+): Status = Status \{ sct: (\d), sc: 0x(\w\w) \}")


def table(head, rows):
    return "".join(f"| {' | '.join(row)} |\n" if row else f"|{'---|' * len(head)}\n" for row in (head, None, *rows)) + "\n"


def code(cell):
    return f"`{cell}`" if cell else ""


def names(cell):
    return ", ".join(map(code, cell.split(", ")))


# ---- the help on a topic


def cells(line, starts, is_wide):
    """The cells of a row: a first one may be longer than its column, and a wide one has the columns in the middle."""
    end = starts[1] if line[starts[1] - 1] == " " else line.index("  ", starts[1])
    inner = [(end, starts[-1])] if is_wide else [(max(start, end), stop) for start, stop in zip(starts[1:], starts[2:])]
    return [it.strip() for it in (line[:end], *(line[start:stop] for start, stop in inner), line[starts[-1]:])]


def rows_in(lines, starts, is_wide):
    """The rows of a part, each with the lines that go on with it."""
    found = []
    for line in lines:
        row = cells(line, starts, is_wide)
        if row[0]:
            found.append(row)
        else:
            found[-1] = [f"{one} {more}".strip() for one, more in zip(found[-1], row)]
    return found


def default(cell):
    """A default, as code where it is a value."""
    return code(cell) if cell[:1] in '"[0123456789' else cell.strip("()")


def part(lines, head, starts, title):
    """The table of a part. Where some cell passes the second column, the columns in the middle are one."""
    is_wide = len(starts) > 3 and any(line[starts[-2] - 1] != " " for line in lines if line[0] != " ")
    columns = ITEMS.get(title, [head[0], "Meaning", head[-1]] if is_wide else head)
    second = names if title in ITEMS else default
    rows = rows_in(lines, starts, is_wide)
    return table(columns, [[names(it[0]), *map(second, it[1:-2]), it[-2].replace('","', '", "'), code(it[-1])] for it in rows])


def heading(title):
    """A title as a heading, with tables of a file as code."""
    return "### " + re.sub(r"\[+\w+\]+", r"`\g<0>`", title) + "\n\n" if title else ""


def other(lines):
    """Lines that are no part: those of a shell or of a file as code, and a sentence as it is."""
    kinds = {"{": "json", " ": "text"}
    text = "\n".join(it.removeprefix("  ") for it in lines)
    return f"```{kinds[lines[0][0]]}\n{text}\n```\n\n" if lines[0][0] in kinds else f"{text}\n\n"


def topic(text):
    """A help as Markdown, with a table for each part below its title."""
    made, head, starts = [], [], []
    for lines in (it.splitlines() for it in text.rstrip("\n").split("\n\n")):
        if lines[0].startswith(("Key ", "Field ")):
            head, starts = lines[0].split(), [lines[0].index(it) for it in lines[0].split()]
        rest = lines[lines[0].split() == head:]
        title = rest[0].removesuffix(":") if rest[0].endswith(":") else ""
        is_part = title or len(rest) < len(lines)
        made.append(heading(title) + part(rest[bool(title):], head, starts, title) if is_part else other(lines))
    return "".join(made)


def example(sources, name):
    return f"[{name}](../examples/{name}):\n\n```toml\n{sources.text(f'examples/{name}')}```\n\n" if name else ""


def helped(sources, name, section, file):
    told = topic(sources.printed(f"help {name}"))
    return f"`nvmearb help {name}` tells these ([more](FORMATS.md#{section})). {told}{example(sources, file)}"


# ---- definitions and comments


def variants(sources, path, name):
    """The variants of an enumeration that have a comment: the name, the comment, and the text of its fault."""
    body = sources.text(path).split(f"pub enum {name} {{\n")[1].split("\n}\n")[0]
    return {it: (" ".join(comment.replace("///", "").split()), fault) for comment, fault, it in VARIANT.findall(body)}


def meaning(comment):
    """What a comment tells of a key or field, behind its name."""
    return comment.partition(": ")[2].removesuffix(".")


def texts(sources, path, start):
    """The texts of variants in the arms of a function or implementation that begins so."""
    arms = ARM.findall(sources.text(path).split(start)[1].split("\n}\n")[0])
    return {name: text.replace('\\"', '"') for several, text in arms for name in re.findall(r"::(\w+)", several)}


def number(word, values):
    """A number, or that of a constant, which may name another one."""
    while word in values:
        word = values[word]
    return {str(2**63 - 1): "2^63 - 1"}.get(word, word)


def ranges(sources):
    """The default, if any, and the range of each number of a workload file."""
    values = dict(re.findall(r"pub const (\w+): \w+ = (\w+);", "".join(map(sources.text, CONSTANTS))))
    text = "".join(sources.text(f"{WORKLOAD}/specs/{it}.antt") for it in ("Plan", "Regions", "Scripts"))
    found = {key: [number(it, values) for it in told.split()] for key, told in READ.findall(text)}
    return {key: ("".join(it[:-2]), " to ".join(it[-2:])) for key, it in found.items()}


def workload(sources):
    """The tables of a workload file, below what the definitions call them."""
    lines, told = sources.lines(f"{WORKLOAD}/specs/Keys.antt"), ranges(sources)
    says = variants(sources, f"{WORKLOAD}/src/key.rt", "Key")
    name_of = {it.split("key.")[1].split()[0]: it.split('"')[1] for it in lines if it.startswith("text_of key.")}

    def row(key):
        fallback, value = told.get(key, ("", ""))
        value = VALUES.get(name_of[key], "{}").format(value)
        return [code(name_of[key]), code(fallback) or "required", value, meaning(says[key][0])]

    found = [(lines[n - 2].removeprefix("-- "), re.findall(r"key\.(\w+)", it)) for n, it in enumerate(lines) if "_keys = " in it]
    parts = [(title, table(["Key", "Default", "Range", "Meaning"], map(row, keys))) for title, keys in found]
    return "".join(f"### {title[0].upper()}{title[1:]}\n\n{rows}" for title, rows in parts) + example(sources, LONG_EXAMPLE)


def log(sources):
    """The fields of the head and of events, and the kinds of these."""
    path, columns = f"{AUDIT}/fault.rt", ["Field", "Value", "Meaning"]
    kinds, kind_names = variants(sources, path, "Kind"), texts(sources, path, "impl Kind {")
    says, wanted = variants(sources, path, "Field"), texts(sources, f"{AUDIT}/notes.rt", "fn wanted(")
    rows = [(says.get(it, [""])[0], [code(name), wanted[it]]) for it, name in texts(sources, path, "impl Field {").items()]
    head, fields = ([[*row, meaning(told)] for told, row in rows if (" of the head: " in told) == it] for it in (True, False))
    events = [[code(kind_names[it]), told] for it, (told, _) in kinds.items()]
    parts = ("Head", columns, head), ("Kinds of events", ["Kind", "Event"], events), ("Fields of events", columns, fields)
    return "".join(f"### {title}\n\n{table(*it)}" for title, *it in parts)


def rules(sources):
    """The rules for each side."""
    made = []
    for side, enumeration, *functions in SIDES:
        name_of, sections = (texts(sources, f"{AUDIT}/names.rt", f"fn {it}(") for it in functions)
        told = variants(sources, "crates/nvme_audit/src/verdict.rt", enumeration)
        rows = [[code(name_of[it]), comment, sections[it]] for it, (comment, _) in told.items()]
        made.append(f"### Rules for the {side}\n\n{table(['Rule', 'It says', 'Section'], rows)}")
    name_of, sections = (texts(sources, f"{AUDIT}/names.rt", f"fn {it}(") for it in ("pick_rule_name", "section_of_pick"))
    told = variants(sources, PICK_RULES, "Rule")
    rows = [[code(name_of[it]), comment, sections[it]] for it, (comment, _) in told.items()]
    return "".join([*made, f"### Rules of arbitration\n\n{table(['Rule', 'It says', 'Section'], rows)}"])


def members(sources, path, name):
    """The fields of a structure, and what their comments say."""
    body = sources.text(path).split(f"pub struct {name} {{\n")[1].split("\n}\n")[0]
    told = {it: " ".join(comment.replace("///", "").split()) for comment, it in MEMBER.findall(f"{body}\n")}
    return {it: FIELDS.get(it, says.replace("`None`", "`null`")) for it, says in told.items()}


def layout(sources, file, name, place):
    """The fields of an entry: where each lies, and what it is."""
    says = members(sources, f"{ENTRY}/src/{file.lower()}.rt", name) | FIELDS
    fields = [it for it in sources.lines(f"{ENTRY}/specs/{file}.antt") if it.startswith("  pub ") and "length" not in it]
    named = [(it.split()[1], it) for it in fields]
    return [[place(line), says.get(name) or f"Command Dword {name.removeprefix('cdw')}."] for name, line in named]


def byte_place(line):
    first, count = map(int, re.search(r"bytes_at (\d+) (\d+)", line).groups())
    return str(first) if count == 1 else f"{first} to {first + count - 1}"


def bit_place(line):
    bits, dword = re.search(r"bits_of (\d+) (\d+)", line), re.search(r"dword (\d)", line)[1]
    places = dict.fromkeys(f"{int(it):02}" for it in bits.groups()) if bits else []
    return ", ".join(filter(None, [f"Dword {dword}", ":".join(places)]))


def admin_commands(sources):
    """The opcode of each admin command, its name and its fields, by what definitions call it; and the bits of these fields."""
    text = sources.text(f"{ENTRY}/specs/AdminCommand.antt")
    bits = BITS.findall(text + sources.text("crates/nvme_admin/specs/Placing.antt"))
    label = {taken: name for name, _, taken in bits}
    named = dict(re.findall(r'0x(\w\w) => "(.*)"', sources.text("crates/nvme_lint/src/warning.rt")))
    found = re.findall(r"entry\.opcode == 0x(\w\w) then (\w+) (.*)", text)
    fields = [[label.get(it, it.upper()) for it in re.findall(r"\w+_of(?= entry)|(?<=entry\.)\w+", rest)] for _, _, rest in found]
    rows = {command: [f"{it.upper()}h", named[it], ", ".join(labels)] for (it, command, _), labels in zip(found, fields)}
    return rows, [list(it[:2]) for it in bits]


def entries(sources):
    commands, bits = admin_commands(sources)
    parts = (
        ("Submission entry", ["Bytes", "Field"], layout(sources, "Submission", "Sqe", byte_place)),
        ("Completion entry", ["Bits", "Field"], layout(sources, "Completion", "Cqe", bit_place)),
        ("Admin commands", ["Opcode", "Command", "Fields"], commands.values()),
        ("Fields of admin commands", ["Field", "Bits"], bits),
    )
    return "".join(f"### {title}\n\n{table(*it)}" for title, *it in parts)


def checks(sources):
    """The checks of each admin command in their order, those of all first, then those where queues may lie anywhere."""
    codes = re.findall(r"(\w+) = code (\d) 0x(\w\w)", "".join(map(sources.text, CODES)))
    code_of = {name: f"{sct}/{sc}" for name, sct, sc in codes}
    commands, _ = admin_commands(sources)
    name_of = {command: row[1] for command, row in commands.items()} | {"entry": "each", "Other": "another opcode"}
    text = sources.text("crates/nvme_admin/specs/Checks.antt")
    parts = re.split(r"(?m)^(status_over t|placing_rows_of p|rows_of t) (?:entry )?\(?(\w+).*=$", text)[1:]
    found = sorted(zip(parts[::3], parts[1::3], parts[2::3]), key=lambda it: list(WHERE).index(it[0]))
    rows = [(f"{name_of[command]}{WHERE[kind]}", told) for kind, command, body in found for told in CHECK.findall(body)]
    split = [(who, *says.rstrip(")").rsplit(" (", 1), rest.split("\n")[1:]) for who, (says, rest) in rows]
    made = [[who, says, ", ".join(code_of[it.split()[-1]] for it in lines), section] for who, says, section, lines in split]
    return table(["Command", "Check", "Status", "Section"], made)


def numbers(sources):
    """The numbers of a row, and the columns of the log."""
    path, inner = "crates/nvme_numbers/src", "crates/nvme_model/src"
    columns_text = sources.text(f"{path}/columns.rt")
    measure_of = {measure: field for measure, field in re.findall(r"Measure::(\w+) => .*\bspread\.(\w+)", columns_text)}
    key_of = {measure_of[measure]: key for key, measure in re.findall(r'of_measure\("(\w+)", Measure::(\w+)', columns_text)}
    rows = [[code(it), says] for it, says in members(sources, f"{path}/row.rt", "Row").items() if it not in ("spread", "fed")]
    spread = [[code(key_of[it]), says] for it, says in members(sources, f"{path}/row.rt", "Spread").items()]
    fed_of = {"time": "fed_ps"}
    fed = [[code(fed_of.get(it, f"{it}_fed")), says] for it, says in members(sources, f"{path}/row.rt", "Fed").items()]
    above = [row for row in spread if "above" in row[0]]
    rows += [row for row in spread if row not in above] + fed + above
    columns = sources.text(f"{path}/finish_log.rt").split('NAMES: &str =\n    "')[1].split('"')[0].split(",")
    told = members(sources, f"{inner}/finished.rt", "Finished") | members(sources, f"{inner}/times.rt", "Times")
    log_rows = [[code(it), told[it.removesuffix("_ps")]] for it in columns]
    return f"### Of a row\n\n{table(['Key', 'Value'], rows)}### Columns of the log\n\n{table(['Column', 'Value'], log_rows)}"


def picks(sources):
    """The rules of a trace, in their order."""
    told = variants(sources, PICK_RULES, "Rule").values()
    return "".join(f"{n}. {says}\n" for n, (says, _) in enumerate(told, 1))


def statuses(sources):
    """All statuses that the library answers, in the order of their codes."""
    flags = sources.text("crates/nvme_ctrl_log/specs/StatusFlags.antt")
    final = flags.split("final_statuses =\n")[1].split(" ∷ []")[0].upper().split()
    found = [it for path in STATUSES for it in STATUS.findall(sources.text(path))]
    rows = sorted([f"{sct}/{sc}", name, "set" if constant in final else ""] for name, constant, sct, sc in found)
    return table(["Status", "Meaning", "Do Not Retry"], rows)


def faults(sources):
    """The faults of lines but refused memory, and those of another kind of line."""
    made = []
    for kind, path in LINES.items():
        found = variants(sources, path, "LineFault").items()
        told = [(re.sub(r"\{\w+\}", "..", fault), says) for name, (says, fault) in found if name not in NEVER_OF_A_FILE]
        rows = [[code(fault), says] for fault, says in told if fault not in ("out of memory", "..")]
        made.append(f"### Of a line of a {kind}\n\n{table(['Fault', 'Cause'], rows)}")
    return "".join(made)


def summary(sources):
    told = sources.printed(SUMMARY.replace("examples/", f"{TOP}/examples/"))
    return f"```text\n$ nvmearb {SUMMARY}\n{told}```\n"


def made(sources):
    parts = {name: helped(sources, *it) for name, it in TOPICS.items()}
    parts |= {it.__name__: it(sources) for it in (workload, log, picks, rules, entries, checks, statuses, numbers, faults)}
    body = BODY.format(**parts).rstrip()
    contents = " · ".join(f"[{it}](#{it.lower().replace(' ', '-')})" for it in re.findall("(?m)^## (.*)$", body))
    return {"docs/KEYS.md": f"{HEAD.format(contents=contents)}{body}\n", "docs/FORMATS.md#summary": summary(sources)}
