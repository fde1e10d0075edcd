# SPDX-License-Identifier: MIT
"""Judges of an arbiter, to be told of each of its picks while it runs."""
from __future__ import annotations

import json
import subprocess
from collections.abc import Sequence
from types import TracebackType
from typing import IO, Any, Optional

from .arbiter import NO_LIMIT, Arbiter, Mechanism, Pick, Priority, Seen

CLASSES = {it: it.name.lower() for it in Priority}
LEVELS = (Priority.HIGH, Priority.MEDIUM, Priority.LOW)


class Differs(AssertionError):
    """A pick isn't the lawful one. `picked` and `lawful` are the two: None where nothing was, or is to be, picked."""

    def __init__(self, picked: Optional[Pick], lawful: Optional[Pick], seen: Sequence[Seen]) -> None:
        shown = ", ".join(f"q{it.qid} {CLASSES[it.priority]} {it.count}" for it in seen)
        super().__init__(f"picked {picked or 'nothing'}, lawful {lawful or 'nothing'}, of {shown or 'no queue'}")
        self.picked, self.lawful = picked, lawful


def line(seen: Sequence[Seen], pick: Pick, room: int = NO_LIMIT) -> str:
    """A pick as a line of a trace, with the room that there was for it, if that is a limit."""
    shown = [[it.qid, CLASSES[it.priority], it.count] for it in seen]
    limit = {"room": room} if room < 256 else {}
    return json.dumps({"pick": pick.qid, "n": pick.n, **limit, "fresh": pick.fresh, "seen": shown})


class Trace:
    """The trace of an arbiter, in the format that `nvmearb check`, `stats` and `chart` read."""

    def __init__(self, mechanism: Mechanism, cdw11: int, trace: Optional[IO[str]]) -> None:
        self._trace = trace
        self._write(json.dumps({"version": 1, "mechanism": ["round-robin", "weighted"][mechanism - 1], "cdw11": cdw11}))

    def _write(self, text: str) -> None:
        if self._trace:
            print(text, file=self._trace, flush=True)


class Judge(Trace):
    """Compares each pick with the one that the library's arbiter makes of the same queues. `fresh` may be told and need
    not be: an arbiter that has no such wire is judged by queue and number. Give it a `trace`, and it writes each pick
    there too, with `fresh` as the library has it.

    >>> judge = Judge(Mechanism.WEIGHTED, 0x01000001)
    >>> judge.pick([Seen(1, Priority.HIGH, 5), Seen(2, Priority.LOW, 5)], Pick(1, 2))
    >>> judge.pick([Seen(1, Priority.HIGH, 3), Seen(2, Priority.LOW, 5)], Pick(1, 1))
    Traceback (most recent call last):
    nvmearb.judge.Differs: picked q1 1, lawful q2 1, of q1 high 3, q2 low 5
    """

    def __init__(self, mechanism: Mechanism, cdw11: int = 0, trace: Optional[IO[str]] = None) -> None:
        super().__init__(mechanism, cdw11, trace)
        self._arbiter = Arbiter(mechanism, cdw11)
        self._weighted = self._new = mechanism is Mechanism.WEIGHTED  # no command of a level was picked in this round

    def set(self, cdw11: int) -> None:
        """The Arbitration feature was set."""
        self._arbiter.set(cdw11)
        self._new = self._weighted
        self._write(json.dumps({"set": cdw11}))

    def pick(self, seen: Sequence[Seen], pick: Optional[Pick], room: int = NO_LIMIT) -> None:
        """The arbiter was shown these queues, in ascending order, and picked this, or nothing. `room`: it had room for
        so many commands, at least 1. Raises `Differs`."""
        lawful = self._arbiter.pick_up_to(seen, room)
        agrees = self._agree(pick, lawful)
        written = lawful if agrees else pick
        if written is not None:
            self._write(line(seen, written, room))
        self._new = self._new and not any(it.qid == lawful.qid and it.priority in LEVELS for it in seen if lawful)
        if not agrees:
            raise Differs(pick, lawful, seen)

    def _agree(self, pick: Optional[Pick], lawful: Optional[Pick]) -> bool:
        if pick is None or lawful is None:
            return pick is lawful
        # (a round that began by itself may be told to begin until a command of a level is picked in it)
        return pick[:2] == lawful[:2] and (lawful.fresh or self._new or not pick.fresh)


class SpecJudge(Trace):
    """Hands each pick to the program: `nvmearb check --spec` asks only what the specification does. At the end of a
    `with` it raises an `AssertionError` with the program's words, if a pick isn't allowed."""

    def __init__(self, mechanism: Mechanism, cdw11: int = 0, program: str = "nvmearb") -> None:
        words = [program, "check", "--spec", "-"]
        self._check = subprocess.Popen(words, stdin=subprocess.PIPE, stdout=subprocess.PIPE, text=True)
        super().__init__(mechanism, cdw11, self._check.stdin)

    def set(self, cdw11: int) -> None:
        """The Arbitration feature was set."""
        self._write(json.dumps({"set": cdw11}))

    def pick(self, seen: Sequence[Seen], pick: Pick, room: int = NO_LIMIT) -> None:
        """The arbiter was shown these queues, in ascending order, and picked this, with room for so many commands."""
        self._write(line(seen, pick, room))

    def _write(self, text: str) -> None:
        try:
            super()._write(text)
        except BrokenPipeError:  # it has judged already
            self.end()

    def end(self) -> str:
        """What the program says of all picks."""
        said = self._check.communicate()[0]
        if self._check.returncode:
            raise AssertionError(said)
        return said

    def __enter__(self) -> SpecJudge:
        return self

    def __exit__(self, kind: Optional[type[BaseException]], _why: Any, _where: Optional[TracebackType]) -> None:
        if kind is None:
            self.end()
        else:
            self._check.kill()
            self._check.communicate()
