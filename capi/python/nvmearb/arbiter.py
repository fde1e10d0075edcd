# SPDX-License-Identifier: MIT
"""The arbiter: which submission queue is served next, and how many of its commands."""
from __future__ import annotations

import ctypes
from collections.abc import Sequence
from enum import IntEnum
from typing import NamedTuple, Optional

from .library import NONE, ArbiterState, PickFields, SeenFields, checked, in_range, library, u16

NO_LIMIT = 65535


class Mechanism(IntEnum):
    """An arbitration mechanism."""

    ROUND_ROBIN = 1
    WEIGHTED = 2


class Priority(IntEnum):
    """The priority class of a submission queue. ADMIN is that of queue 0, and of no other."""

    ADMIN = 0
    URGENT = 1
    HIGH = 2
    MEDIUM = 3
    LOW = 4


class Seen(NamedTuple):
    """An open submission queue as a pick is shown it: `count` commands wait, 256 if more do."""

    qid: int
    priority: Priority
    count: int


class Pick(NamedTuple):
    """A pick: the next `n` commands of a submission queue. `fresh`: it starts a new round of the weights."""

    qid: int
    n: int
    fresh: bool = False

    def __str__(self) -> str:
        return f"q{self.qid} {self.n}{' fresh' if self.fresh else ''}"


def fields_of(seen: Sequence[Seen]) -> ctypes.Array[SeenFields]:
    for it in seen:
        in_range(16, qid=it.qid, priority=it.priority, count=it.count)
    return (SeenFields * len(seen))(*seen)


def pick_of(fields: PickFields) -> Pick:
    return Pick(fields.qid, fields.n, bool(fields.fresh))


class Arbiter:
    """An arbiter that has served nothing yet. `cdw11` is that of the Arbitration feature.

    >>> arbiter = Arbiter(Mechanism.WEIGHTED, 0x01000001)  # burst 2; weights: high 2, low 1
    >>> print(arbiter.pick([Seen(1, Priority.HIGH, 5), Seen(2, Priority.LOW, 5)]))
    q1 2
    """

    def __init__(self, mechanism: Mechanism, cdw11: int = 0) -> None:
        in_range(32, mechanism=mechanism, cdw11=cdw11)
        self._state = ArbiterState()
        checked(library().nvmearb_arbiter_init(ctypes.byref(self._state), int(mechanism), cdw11))

    def set(self, cdw11: int) -> None:
        """Takes new settings. They start a new round; which queues were served last is kept."""
        in_range(32, cdw11=cdw11)
        checked(library().nvmearb_arbiter_set(ctypes.byref(self._state), cdw11))

    def peek(self, seen: Sequence[Seen]) -> Optional[Pick]:
        """What `pick` would pick."""
        return self._told(library().nvmearb_arbiter_peek, seen)

    def pick(self, seen: Sequence[Seen]) -> Optional[Pick]:
        """Picks among the open queues, whose identifiers ascend, and counts these commands as served. None if no
        command waits."""
        return self._told(library().nvmearb_arbiter_pick, seen)

    def pick_up_to(self, seen: Sequence[Seen], limit: int) -> Optional[Pick]:
        """Picks at most `limit` commands, at least 1: as `pick`, but n is the least of that n and `limit`. The rest
        waits until the turn of its queue comes again.

        >>> arbiter = Arbiter(Mechanism.WEIGHTED, 0x03000007)  # no burst limit; weight of high 4
        >>> queues = [Seen(1, Priority.HIGH, 9)]
        >>> print(arbiter.pick_up_to(queues, 3), arbiter.pick_up_to(queues, 3), sep=", ")
        q1 3, q1 1
        """
        return self._told(library().nvmearb_arbiter_pick_up_to, seen, u16(limit=limit))

    def _told(self, call: ctypes._FuncPointer, seen: Sequence[Seen], *limit: ctypes.c_uint16) -> Optional[Pick]:
        pick = PickFields()
        code = call(ctypes.byref(self._state), fields_of(seen), ctypes.c_size_t(len(seen)), *limit, ctypes.byref(pick))
        if code == NONE:
            return None
        checked(code)
        return pick_of(pick)
