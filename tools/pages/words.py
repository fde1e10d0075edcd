# SPDX-License-Identifier: MIT
"""docs/WORDS.md and docs/nvmearb.1: the words of the program with what they take, the exit statuses and the faults, by the help
of the program, what it tells of values that it refuses, and the comments of the faults in the sources."""
import re
import subprocess
import textwrap
from datetime import date
from typing import NamedTuple

from pages.sources import Sources

PAGE = """# Words and options

`nvmearb WORD ..` does what the word says. `make docs` makes this page and the manual page nvmearb(1) from what `nvmearb help` \
prints, from what the program tells of values that it refuses, and from the faults in the sources. [FORMATS.md](FORMATS.md) has \
the forms of files and answers.

FILE is {file}. {general}.

{contents}

{program}
{words}
## Examples

```text
{examples}
```

## Exit statuses

{statuses}
## Faults

A fault is told on standard error, or in the JSON or JUnit of `check` and `audit`, in a line behind `nvmearb: `, or behind \
`error: ` where the words themselves are refused. Further lines may tell more. `..` stands for a name, a number or a text; \
[KEYS.md](KEYS.md#faults-of-lines) has the faults of a line. Lines that aren't here say what was expected, or what the system \
said of a file that can't be opened, read or written. A file whose write failed may have a part of its text.

{faults}"""
MANUAL = r""".\" SPDX-License-Identifier: MIT
.\" Made by tools/pages/words.py.
.Dd {date}
.Dt NVMEARB 1
.Os
.Sh NAME
.Nm nvmearb
.Nd {about}
.Sh SYNOPSIS
{synopses}
.Nm
.Fl -help | Fl -version
.Sh DESCRIPTION
.Nm
runs a proved front of an NVMe controller over a workload: it fetches commands,
arbitrates by round robin or by weighted round robin with urgent priority class,
hands them to workers and posts completions.
It also judges, counts and draws traces of any arbiter, judges logs of any
controller, and simulates a device.
.Pp
.Ar FILE
is
{file}
{general}
.Xr nvmearb 5
has the forms of files, traces and answers.
.Bl -tag -width Ds
{words}
.El
.Sh FILES
.Bl -tag -width Ds
.It Pa share/nvmearb/examples/*.toml , share/nvmearb/examples/short/*.toml
Workloads, below the prefix of the installation.
.It Pa share/nvmearb/docs/TUTORIAL.md
Weighted round robin in ten minutes.
.El
.Sh EXIT STATUS
.Bl -tag -width Ds
{statuses}
.El
.Sh EXAMPLES
{examples}
.Pp
Draw the picks of a workload, and check a trace of one's own arbiter:
.Bd -literal -offset indent
$ nvmearb trace examples/five-queues.toml | nvmearb chart -o chart.svg
$ nvmearb check mine.jsonl
.Ed
.Pp
Tell settings of arbitration as a dword, and answer one entry over a namespace
of 1000 blocks:
{answered}
.Sh DIAGNOSTICS
A fault is told on standard error, or in the JSON or JUnit of
.Cm check
and
.Cm audit ,
in a line behind
.Ql nvmearb:\& ,
or behind
.Ql error:\&
where the words themselves are refused.
Further lines may tell more.
Two dots stand for a name, a number or a text.
Lines that aren't here say what was expected, or what the system said of a file
that can't be opened, read or written.
A file whose write failed may have a part of its text.
.Xr nvmearb 5
has more.
.Bl -tag -width Ds
{faults}
.El
.Sh SEE ALSO
.Xr nvmearb 5
.Sh STANDARDS
NVM Express Base Specification, revision 2.0, and NVM Command Set Specification,
revision 1.0.
.Sh BUGS
.Cm live
and
.Cm run Fl -live
don't report the same picks in each run.
Without
.Fl -live
the hosts submit before the front begins, and the report is the same for every
number of workers.
"""
# Values of which the help doesn't say what they are.
ASKED = ("N", "RULE,..")
# What the help tells of inputs, and where the pages have more.
FORMS = {
    "a workload file as expand writes it": "FORMATS.md#workload-file",
    "a workload file:": "FORMATS.md#short-workload-file",
    "a simulation file": "FORMATS.md#simulation-file",
    "a trace": "FORMATS.md#trace",
    "a log of a controller": "FORMATS.md#log",
    "a submission entry": "FORMATS.md#submission-entry-64-bytes",
}
# Files of the sources that say which options of a word don't go together.
RULES = {
    "run": ["nvmearb/src/running.rt"],
    "check": ["nvme_words/src/requests.rt"],
    "simulate": [
        "nvme_simulate/src/overrides.rt",
        "nvme_points/src/fault.rt",
        "nvme_words/src/simulations.rt",
        "nvmearb/src/simulating.rt",
    ],
}
RULE = re.compile(r'"(?:nvmearb: )?(--[^"{]* (?:go|goes|want|wants) [^"{]*)"')
# What the help doesn't tell: of all words, and of one.
GENERAL = [
    "A file is made or replaced, that of `--output` once the answer is whole, and the name of a picture ends with .svg",
    "On a terminal, standard error tells how far simulate, check, stats and chart are",
]
MORE = {
    "simulate": [
        "`--jobs` is by default the number of processors that it may use, at most 64",
        "The files of `--log` and `--trace` are written while it runs, once the simulation file has no fault",
        "Lines on standard error, behind `nvmearb: note: `, tell that the warm-up leaves no command for the answer, that more "
        "commands come than the device can run, or that a number of commands ends the replays before their files do",
    ],
    "check": ["Standard input can be named once"],
    "stats": ["`--to` is by default the last pick, and `--window` tells nothing at 0, which is its default"],
    "chart": ["`--to` is by default the last pick"],
    "audit": ["Standard input can be named once", "Of several logs the greatest status of 1 to 3 comes before 4"],
    "lint": ["It runs nothing"],
    "expand": ["A workload file that isn't short is written as it is"],
    "once": [
        "The digits come from standard input, in either case, with at most one newline behind them",
        "The entry is taken as the first command of submission queue 1, of 256 slots: the answer has SQID 1, SQHD 1 and phase "
        "tag 1, in 32 lower case digits",
    ],
}
# The section that tells a word's answer.
ANSWERS = {
    "run": "Report of a run",
    "simulate": "Answer of a simulation",
    "check": "Check of a trace",
    "stats": "Statistics of a trace",
    "chart": "Chart of a trace",
    "audit": "Audit of a log",
}
# The line of a word whose answer is shown, and the file that it reads.
SHOWN = {"settings": ("settings --burst 8 --weights 8:4:2", ""), "once": ("once --blocks 1000", "examples/read.hex")}
# The words whose fault it is, what stands before it, where the sources list it, and the exit status.
FAULTS = [
    ("run, trace, simulate, lint, expand, once, loaded, live", "", "nvme_words/src/input.rt", "InputError", "3"),
    ("once", "", "nvme_words/src/entries.rt", "OnceError", "1"),
    ("run, trace, lint, expand, loaded, live", "workload: ", "nvme_workload/src/error.rt", "WorkloadError", "1"),
    ("check, stats, chart", "", "nvme_trace/src/fault.rt", "TraceError", "1"),
    ("audit", "", "nvme_audit_text/src/fault.rt", "LogError", "1"),
    ("settings", "settings: ", "nvme_settings/src/reading.rt", "SettingsFault", "2"),
    ("simulate", "--load: ", "nvme_simulate/src/target.rt", "LoadFault", "2"),
    ("run, trace, loaded, live", "", "nvme_runs/src/runs.rt", "RunError", "3"),
    ("simulate", "simulation: ", "nvme_simulation/src/fault.rt", "SimulationFault", "3"),
]
# Those whose status is another one.
STATUSES = {"input too long": "1", "a count of the log has more than 64 bits": "3"}
# Faults of those lists that are left out: another stands in their place, the command line is refused before, every word tells
# it, or the value of its option says it.
UNTOLD = ("workload: {0}", "workers", "write failed", "expected a load above 0 and at most 4",
          "expected digits, or digits, a point and one to six digits, as 0.7")
SYSTEM = ("out of memory", "read failed")
SCRIPT = ("70", "the script ./nvmearb of the source tree couldn't build the program")


class Term(NamedTuple):
    """An operand, or an option with its names: the name of the value, what it may be, and what the help says."""
    names: list
    value: str
    takes: str
    says: str


class Word(NamedTuple):
    """What the help says of a word, notes of how its options go together and more, and a line of it with its answer."""
    name: str
    says: str
    usage: str
    reads: str
    terms: list
    topics: list
    notes: list
    example: str


class Fault(NamedTuple):
    words: str
    line: str
    says: str
    status: str


class Told(NamedTuple):
    about: str
    file: str
    options: list
    words: list
    examples: list
    statuses: list
    faults: list


def listed(text, title):
    """The terms of a list of the help, and what it says of each."""
    part = text.partition(f"\n{title}:\n")[2].partition("\n\n")[0]
    items = [it.strip().partition("  ") for it in re.sub(r"\n {4,}(?=[^ -])", "  ", part).splitlines()]
    return [(term, " ".join(says.split())) for term, _, says in items]


def ranges_in(text):
    """What values may be, by the names that the help gives them, or by the option where it tells those of several."""
    rows = listed(text, "Ranges")
    by_option = [it.removeprefix("of ").split(" ", 1) for _, says in rows if says.startswith("of --") for it in says.split("; ")]
    by_name = [(name, says) for names, says in rows if not says.startswith("of --") for name in names.split(", ")]
    return dict([*by_name, *by_option])


def left_by(sources, line, file=""):
    """What the program leaves of a line that it may refuse."""
    text = sources.text(file) if file else ""
    return subprocess.run([sources.program, *line.split()], input=text, capture_output=True, text=True, check=False)


def asked(sources, word, name):
    """What an option takes, a number or rules, by the words that refuse a number of 64 bits."""
    told = re.search(r"is not in (\d+)\.\.=(\d+)|expected rules of (.+)", left_by(sources, f"{word} {name}={2 ** 63}").stderr)
    return told[3] or f"{told[1]} to {told[2]}"


def option_of(sources, word, ranges, term, says):
    head, _, value = term.partition(" <")
    names, value, (says, *notes) = head.split(", "), value.rstrip(">"), says.split(" [")
    noted = dict(it.rstrip("]").split(": ") for it in notes)
    takes = ranges.get(names[-1]) or ranges.get(value) or noted.get("possible values", "")
    takes = takes or (asked(sources, word, names[-1]) if value in ASKED else "")
    default = f"{noted['default']} by default" if "default" in noted else ""
    return Term(names, value, "; ".join(filter(None, [takes, default])), says.replace(f", {takes}", "") if takes else says)


def example_of(sources, line, file):
    return f"$ nvmearb {line}{' < ' * bool(file)}{file}\n{left_by(sources, line, file).stdout}"


def word_of(sources, text, name):
    """A word, by the help of the program and its own."""
    own, ranges = sources.printed("help help" if name == "help" else f"{name} --help"), ranges_in(text)
    says, usage = own.splitlines()[0].rstrip("."), re.search("Usage: (.*)", own)[1]
    operands = [(re.sub(r"\W", "", term), told) for term, told in listed(own, "Arguments")]
    options = [option_of(sources, name, ranges, *it) for it in listed(own, "Options") if "--help" not in it[0]]
    rules = [rule for path in RULES.get(name, []) for rule in RULE.findall(sources.text(f"crates/{path}"))]
    return Word(
        name,
        says,
        usage=usage,
        reads="; ".join(what for words, what in listed(text, "Input") if name in words.split(", ") and what != "none"),
        terms=[*(Term([], value, ranges.get(value, ""), told) for value, told in operands), *options],
        topics=[it for it in listed(text, "First steps, without a file") if f"nvmearb {name} " in it[0]],
        notes=[*rules, *MORE.get(name, [])],
        example=example_of(sources, *SHOWN[name]) if name in SHOWN else "",
    )


def said(comment, text):
    """The first sentence of a comment, with the numbers of the constants that it names."""
    numbers = dict(re.findall(r"const (\w+): \w+ = ([\d_]+);", text))
    told = " ".join(it.strip().removeprefix("///").strip() for it in comment.splitlines())
    sentence = re.split(r"(?<=\.) (?=[A-Z])", told)[0].rstrip(".")
    return re.sub(r"`(\w+)`", lambda it: numbers[it[1]].replace("_", "") if it[1] in numbers else it[0], sentence)


def faults_in(words, before, path, name, status):
    """The faults of an enumeration, but not those of reading and memory that say no more, or stand behind another text."""
    text = Sources.text(f"crates/{path}")
    body = text.partition(f"pub enum {name} {{\n")[2].partition("\n}\n")[0]
    found = [it for it in re.findall(r'((?: *///.*\n)+) *#\[error\("([^"]*)"', body) if it[1] not in UNTOLD]
    assert found, f"crates/{path} lists no faults as {name}"
    told = [(re.sub(r"(\{\w+\})+", "..", line), said(comment, text)) for comment, line in found]
    kept = [it for it in told if it[0] not in SYSTEM or not (before or it[1].lower().endswith(it[0]))]
    return [Fault(words, f"{before}{line}", says, STATUSES.get(line, status)) for line, says in kept]


def told_by(sources):
    text = sources.printed("help")
    return Told(
        about=text.splitlines()[0].removeprefix("The "),
        file=dict(listed(text, "Input"))["FILE"],
        options=listed(text, "Options"),
        words=[word_of(sources, text, it) for it in ["demo", *(name for name, _ in listed(text, "Commands"))]],
        examples=[term for term, _ in listed(text, "Example")],
        statuses=sorted([*listed(text, "Exit status"), SCRIPT], key=lambda it: int(it[0])),
        faults=[fault for it in FAULTS for fault in faults_in(*it)],
    )


def meanings(says):
    """What an exit status means for every word, and for those of which the help tells more."""
    general, *own = f"; {says}".replace(", with ", "; with ").split("; with ")
    general = general.removeprefix("; ")
    pairs = [it.split(" ", 1) for it in own]
    return general, {name.rstrip(":"): what.replace("also: ", f"{general}, or ") for name, what in pairs}


def capital(text):
    return text[:1].upper() + text[1:]


def coded(text):
    """A text of a page, with options as code."""
    return re.sub(r"(?<![\w`-])--[a-z]+(?:-[a-z]+)*", r"`\g<0>`", text)


def table(head, rows):
    lines = ["".join(f"| {it} " if it else "| " for it in (cell.replace("|", r"\|") for cell in row)) for row in [head, *rows]]
    return "".join(f"{it}|\n" for it in [lines[0], "|---" * len(head), *lines[1:]])


def link(title, path=""):
    return f"[{title}]({path}#{title.lower().replace(' ', '-')})"


def intro(word):
    """What a word does and reads, with links to the sections of what it reads and of its answer."""
    reads = f"It reads {word.reads}." if word.reads else ""
    for form, place in FORMS.items():
        reads = reads.replace(form, f"[{form.rstrip(':')}]({place}){':' * form.endswith(':')}")
    answer = f"Its answer: {link(ANSWERS[word.name], 'FORMATS.md')}." if word.name in ANSWERS else ""
    return " ".join(filter(None, [f"{coded(word.says)}.", reads, answer]))


def status_line(word, statuses):
    """The exit statuses of a word: those with a meaning of their own, and the others by their numbers."""
    rows = [(status, *meanings(says)) for status, says in statuses if status != SCRIPT[0]]
    own = [f"{status} {coded(others[word.name])}" for status, _, others in rows if word.name in others]
    others = [(status, general) for status, general, others in rows if general and word.name not in others]
    common = [status for status, general in others if word.reads or "input" not in general]
    return "; ".join([*own, f"[{', '.join(common)}](#exit-statuses)"])


def term_row(term):
    shown = " ".join([", ".join(term.names), term.value]).strip()
    return [f"`{shown}`", coded(term.takes), coded(term.says)]


def word_part(word, statuses):
    rows = [term_row(it) for it in word.terms]
    return "\n".join(filter(None, [
        f"## {word.name}\n\n{intro(word)}\n\n`{word.usage}`\n",
        table(["Operand or option", "Value", "Meaning"], rows) if rows else "",
        table(["Topic", "What it tells"], [[f"`{term}`", what] for term, what in word.topics]) if word.topics else "",
        f"{coded('. '.join(word.notes))}.\n" if word.notes else "",
        f"```text\n{word.example}```\n" if word.example else "",
        f"Exit status: {status_line(word, statuses)}.\n",
    ]))


def page(told):
    titles = [*(it.name for it in told.words), "Examples", "Exit statuses", "Faults"]
    return PAGE.format(
        file=told.file,
        general=". ".join(GENERAL),
        contents=" · ".join(link(it) for it in titles),
        program=table(["Without a word", "Meaning"], [[f"`{term}`", what] for term, what in told.options]),
        words="\n".join(word_part(it, told.statuses) for it in told.words),
        examples="\n".join(told.examples),
        statuses=table(["Status", "Meaning"], [[status, coded(capital(what))] for status, what in told.statuses]),
        faults=table(["Words", "Line", "Meaning", "Status"], [[words, f"`{line}`", *rest] for words, line, *rest in told.faults]),
    )


def escaped(text):
    """A text in which nothing is an escape."""
    return text.replace("`", "").replace("\\", r"\e").replace("^", r"\(ha").replace("~", r"\(ti")


def roff(*sentences):
    """Sentences of the manual page, each from a line on, in which nothing is a request."""
    how = {"width": 79, "break_long_words": False, "break_on_hyphens": False}
    lines = "\n".join(textwrap.fill(escaped(f"{it}."), **how) for it in sentences)
    return re.sub(r"(?m)^([.'])", r"\\&\1", lines)


def literal(text):
    return f".Bd -literal -offset indent\n{escaped(text)}\n.Ed"


def items(pairs):
    return "\n".join(f".It {head}\n{says}" for head, says in pairs)


def flags(names, value):
    return " , ".join(f"Fl {it[1:]}{' Ar ' * bool(value)}{value}" for it in names)


def synopsis(word):
    """The lines of a word in the synopsis. Its usage tells which operands may be left out, and names the options that may not."""
    def line(it):
        if it.names:
            return f".{'Op ' * (it.names[-1] not in word.usage)}{flags(it.names[:1], it.value)}"
        return f".{'Op ' * (f'[{it.value}' in word.usage)}Ar {it.value}{' ...' * (f'{it.value}..' in word.usage)}"

    return "\n".join([".Nm", f".Cm {word.name}", *map(line, sorted(word.terms, key=lambda it: not it.names))])


def term_item(term):
    takes = f"\n.Ar {term.value} :\n{roff(term.takes)}" if term.takes else ""
    return flags(term.names, term.value) or f"Ar {term.value}", f"{roff(capital(term.says))}{takes}"


def word_item(word):
    """A word in the list of the manual page, with a list of what it takes. What FILE is stands before them."""
    says = roff(*filter(None, [word.says, f"It reads {word.reads}" if word.reads else "", *word.notes]))
    topics = [(term.replace("nvmearb ", "Cm ").replace(", ", " , "), roff(capital(what))) for term, what in word.topics]
    inner = items([*(term_item(it) for it in word.terms if it.names or it.value != "FILE"), *topics])
    return f"Cm {word.name}", "\n".join([says, *[".Bl -tag -width Ds", inner, ".El"] * bool(inner)])


def manual(told, day):
    return MANUAL.format(
        date=f"{day:%B} {day.day}, {day.year}",
        about=told.about,
        synopses="\n".join(map(synopsis, told.words)),
        file=roff(told.file),
        general=roff(*GENERAL),
        words=items(map(word_item, told.words)),
        statuses=items((status, roff(capital(what))) for status, what in told.statuses),
        examples=literal("\n".join(f"$ {it}" for it in told.examples)),
        answered=literal("".join(it.example for it in told.words).rstrip("\n")),
        faults=items((f'"{escaped(it.line)}"', roff(it.says)) for it in told.faults),
    )


def made(sources):
    """Both pages. The day of the manual page is that of the release."""
    told = told_by(sources)
    day = date.fromisoformat(re.search(r"(?m)^date-released: (\S+)$", sources.text("CITATION.cff"))[1])
    return {"docs/WORDS.md": page(told), "docs/nvmearb.1": manual(told, day)}
