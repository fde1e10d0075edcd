# SPDX-License-Identifier: MIT
"""What the tests in Python share. Each file of them is executed, as its head says, by

  tests/NAME [WORD ..] [OPTION ..]

Its WORDs are its own: most take one, PROGRAM, the built program. The OPTIONs behind them are those of Python's unittest:
`-k TEXT` runs the tests that have it in their names, `-v` lists them. The last line, `N passed, M failed`, and
`, K skipped` where some were, counts them."""
import atexit
import contextlib
import functools
import os
import re
import shutil
import subprocess
import sys
import tempfile
import unittest
from collections import namedtuple
from concurrent.futures import ThreadPoolExecutor
from itertools import takewhile

from needs import are_there, left_out

TESTS = os.path.dirname(os.path.realpath(__file__))
TOP = os.path.dirname(TESTS)
# The file that is executed, its own words, and a folder for what its tests write.
NAME = f"tests/{os.path.basename(sys.argv[0])}"
WORDS = [*takewhile(lambda word: not word.startswith("-"), sys.argv[1:])]
FOLDER = tempfile.mkdtemp()
atexit.register(shutil.rmtree, FOLDER, ignore_errors=True)
# A run that takes longer, in seconds, counts as hung.
LONGEST = 120
# What ends the version of a program of which nothing is proved.
UNPROVED = "-unproved"
# Why tests were left out. These count nothing.
LEFT_OUT = []

# What a run leaves.
Left = namedtuple("Left", "status output errors")


def run(words, stdin=b"", stdout=subprocess.PIPE, stderr=subprocess.PIPE, preexec_fn=None, **settings):
    """Runs a program over these bytes, or over an open file, with these environment variables."""
    done = subprocess.run(
        words,
        **({"input": stdin} if isinstance(stdin, bytes) else {"stdin": stdin}),
        stdout=stdout,
        stderr=stderr,
        preexec_fn=preexec_fn,
        env={**os.environ, **{name: str(value) for name, value in settings.items()}},
        timeout=LONGEST,
    )
    return Left(done.returncode, done.stdout, done.stderr)


class Program:
    """The built program: the one that the first of these words names. Without one it is built at its first use, with UNPROVED=1
    in the environment without proofs."""

    def __init__(self, words):
        self.words = words

    def __call__(self, *words, **how):
        """What a run with these words leaves."""
        return run([self.path, *words], **how)

    @functools.cached_property
    def path(self):
        if self.words:
            found = os.path.abspath(self.words[0])
        else:
            how = ["--unproved"] if self.is_unproved else []
            found = f"{TOP}/crates/nvmearb/out/{'unproved/' if how else ''}nvmearb"
            assert subprocess.run([f"{TOP}/tools/build", *how, "nvmearb"]).returncode == 0, "the program did not build"
        assert os.access(found, os.X_OK), f"there is no program {found}"
        return found

    @functools.cached_property
    def is_unproved(self):
        if self.words:
            return self("--version").output.endswith(f"{UNPROVED}\n".encode())
        return bool(os.environ.get("UNPROVED"))

    def version(self):
        """The version that it has to tell: that of the C library's header."""
        with open(f"{TOP}/capi/nvmearb.h", encoding="utf-8") as header:
            version = ".".join(re.findall(r"define NVMEARB_VERSION_\w+ (\d+)", header.read()))
        return version + UNPROVED * self.is_unproved

    def of_page(self, text):
        """What a page shows of the proved program, as this one tells it."""
        version = self.version()
        return re.sub(rf"\bnvmearb {re.escape(version.removesuffix(UNPROVED))}\b", f"nvmearb {version}", text)


nvmearb = Program(WORDS[:1])


def each(cases):
    """Makes of a method `test..` a test for each of these cases, which are names, or names with the words that it takes."""

    def of_cases(method):
        method.cases = cases if isinstance(cases, dict) else {name: (name,) for name in cases}
        return method

    return of_cases


def with_words(method, words):
    """A test that calls a method with these words."""

    @functools.wraps(method)
    def test(self):
        method(self, *words)

    return test


class Case(unittest.TestCase):
    """Tests that may tell figures, which are printed where they pass, and may count tests that another program made."""

    figures, more = "", 0

    def __init_subclass__(cls):
        """Puts the tests of `each` in the place of their methods."""
        super().__init_subclass__()
        for name, method in [(name, it) for name, it in vars(cls).items() if hasattr(it, "cases")]:
            delattr(cls, name)
            for case, words in method.cases.items():
                test = re.sub(r"\W+", "_", f"{name}_{case}")
                assert not hasattr(cls, test), f"two tests are named {test}"
                setattr(cls, test, with_words(method, words))

    def tells(self, figures):
        self.figures = figures

    def counts(self, tests):
        self.more += tests


class ProgramCase(Case):
    """Tests of the built program, which has to be there before them."""

    program = nvmearb

    @classmethod
    def setUpClass(cls):
        assert cls.program.path

    def ends(self, line, text, status, output="", errors=""):
        """The program with these words and this input ends with this status, and writes just this output and these errors."""
        left = self.program(*line.split(), stdin=text)
        self.assertEqual(left.status, status, f"{line}: {left.errors.decode(errors='replace')}")
        self.assertEqual(left.output.decode(), output, line)
        self.assertEqual(left.errors.decode(), errors, line)


class Result(unittest.TextTestResult):
    """Counts the tests that pass, and prints their figures."""

    passed = 0

    def addSuccess(self, test):
        super().addSuccess(test)
        self.passed += 1
        if test.figures:
            print(f"{test.id().rpartition('.test_')[2]}: {test.figures}", flush=True)

    def stopTest(self, test):
        super().stopTest(test)
        self.passed += test.more


class Runner(unittest.TextTestRunner):
    resultclass = Result


def main(options=sys.argv[1 + len(WORDS) :]):
    """Runs the tests of the file that is executed, with these options of unittest, and ends with their counts."""
    ended = unittest.main(argv=[NAME, *options], testRunner=Runner, verbosity=0, exit=False).result
    failed, skipped = len(ended.failures) + len(ended.errors), sum(why not in LEFT_OUT for _, why in ended.skipped)
    print(f"{ended.passed} passed, {failed} failed" + (f", {skipped} skipped" if skipped else ""), flush=True)
    sys.exit(failed != 0)


def leave_out(why):
    """Leaves out a test, or all of a class in its setUpClass, in the form by which the gate collects what wasn't run."""
    left_out(NAME, why)
    LEFT_OUT.append(why)
    raise unittest.SkipTest(why)


def need(needs, what=""):
    """Skips so where these commands, each with the package that has it, can't be had. `what` names a part of the tests."""
    if not are_there(NAME + (f": {what}" if what else ""), needs):
        LEFT_OUT.append(f"there is not all of {', '.join(needs)}")
        raise unittest.SkipTest(LEFT_OUT[-1])


@functools.cache
def installed():
    """The folder where `make install` puts the C library: the one that the first word names, or else it installs it first."""
    if WORDS:
        return os.path.abspath(WORDS[0])
    folder = f"{FOLDER}/installed"
    how = ["make", "-s", "-C", f"{TOP}/capi", "install", f"PREFIX={folder}"]
    assert subprocess.run(how, stdout=sys.stderr).returncode == 0, "the library did not build"
    return folder


@functools.cache
def library(name):
    """Compiles tests/c/NAME.c, to be loaded before a program."""
    made = f"{FOLDER}/{name}.so"
    how = ["cc", "-Wall", "-Wextra", "-Werror", "-shared", "-fPIC", "-O1", "-pthread", "-o", made, f"{TESTS}/c/{name}.c"]
    assert subprocess.run(how).returncode == 0, f"{name}.c did not compile"
    return made


def all_of(check, items):
    """Checks each item, as many at a time as there are processors, and gives the answers in order."""
    with ThreadPoolExecutor(len(os.sched_getaffinity(0))) as several:
        return list(several.map(check, items))


def written_to(terminal):
    """All that was written to a terminal whose other end is closed."""
    told = b""
    # (its end is an error)
    with contextlib.suppress(OSError):
        while part := os.read(terminal, 65536):
            told += part
    return told.decode()


def example(name):
    with open(f"{TOP}/examples/{name}", "rb") as it:
        return it.read()


def changed(text, *pairs):
    """A workload with each first text of these pairs replaced by its second."""
    for old, new in pairs:
        assert old.encode() in text, f"no {old} in the workload"
        text = text.replace(old.encode(), new.encode())
    return text
