# SPDX-License-Identifier: MIT
"""The front of a whole controller, which is driven by calls."""
from __future__ import annotations

import ctypes
from collections.abc import Iterator
from ctypes import byref, c_size_t, c_uint8, c_uint16, c_uint32
from typing import Any, NamedTuple, Optional, Union

from .arbiter import NO_LIMIT, Mechanism, Pick, Priority, Seen, pick_of
from .entries import Sqe, Status, sized, sqe_of
from .library import (
    BUSY, NONE, NOROOM, OK, CommandFields, ConfigFields, CtrlState, PickFields, PlacementFields, PostFields, RegionFields,
    SeenFields, SlotState, StatusFields, StepFields, checked, in_range, library, u8, u16, u32,
)

MAX_QUEUES, MAX_SLOTS = 65, 65535
VERDICTS = ["done", "open_sq", "open_cq", "begin_delete", "close_cq", "set_arbitration", "abort"]


class Config(NamedTuple):
    """What a controller is made with: `asq` and `acq` are the addresses and the slots of the admin queues."""

    asq: tuple[int, int] = (0x1000, 32)
    acq: tuple[int, int] = (0x2000, 32)
    mechanism: Mechanism = Mechanism.ROUND_ROBIN
    cdw11: int = 0
    nsq: int = 64
    ncq: int = 64
    depth: int = 256
    admin_depth: int = 256


class Placement(NamedTuple):
    """What a Create may ask for: the memory page in bytes, a power of two; CAP.MQES, 1 to 4095; and the number of interrupt
    vectors, at least 1."""

    page: int = 4096
    mqes: int = 4095
    vectors: int = 1


class Picked(NamedTuple):
    """Commands of an I/O queue were picked: `take` gives them."""

    pick: Pick


class CarriedOut(NamedTuple):
    """An admin command was picked and carried out. `verdict` is one of VERDICTS, by the header's words: after open_sq
    and open_cq `address`, `qsize`, `vector` and `interrupts` tell what the Create asked for."""

    verdict: str
    status: Status
    dw0: int
    qid: int
    cqid: int
    priority: Priority
    cid: int
    address: int
    qsize: int
    vector: int
    interrupts: bool


class Passed(NamedTuple):
    """An admin command was picked that is the device's: `take` gives it."""

    pick: Pick


class Waits(NamedTuple):
    """Nothing was picked. `why` is idle: no command waits but in queues that are held; busy: commands are to be taken
    first; or no room: the device has room for no command."""

    why: str


Step = Union[Picked, CarriedOut, Passed, Waits]


class Command(NamedTuple):
    """A command that the device has, with what `fetched` was given, and its tag: the slot that holds it in bits 15:0, and
    that slot's generation in bits 31:16. A tag is used up once its command is completed, or the controller is reset. It
    comes again with the 65,536th command that is taken from its slot after it."""

    entry: Sqe
    cookie: int
    tag: int


class Post(NamedTuple):
    """A completion to be written into a slot of a ring (`Cqe.from_bytes`), with the cookie and the tag of its command. If
    the device never took it, the tag is one that is used up."""

    entry: bytes
    cookie: int
    tag: int
    slot: int


class Controller:
    """A controller whose queues may lie anywhere in memory, with its admin queues alone. `slots` is how many commands it
    holds at once. At a reset of the device call `reset`: to a new controller a tag of before may name another command."""

    def __init__(
        self, config: Config = Config(), placement: Placement = Placement(), slots: Optional[int] = None
    ) -> None:
        count = min(config.admin_depth + config.nsq * config.depth, MAX_SLOTS) if slots is None else slots
        if not 1 <= count <= MAX_SLOTS:
            raise ValueError(f"slots is {count}, and not 1 to {MAX_SLOTS}")
        self._ctrl, self._slots = CtrlState(), (SlotState * count)()
        self.reset(config, placement)

    def reset(self, config: Config = Config(), placement: Placement = Placement()) -> None:
        """Makes the controller anew, as where CC.EN becomes 1: nothing of before is left but the generations of the slots, so
        that tags of before are used up."""
        in_range(32, cdw11=config.cdw11, page=placement.page)
        in_range(16, nsq=config.nsq, ncq=config.ncq, depth=config.depth, admin_depth=config.admin_depth)
        in_range(16, mqes=placement.mqes, vectors=placement.vectors)
        regions = []
        for address, slots in (config.asq, config.acq):
            in_range(64, address=address)
            in_range(16, slots=slots)
            regions.append(RegionFields(address, slots))
        fields = ConfigFields(*regions, *config[2:])
        checked(self._call("init_anywhere", byref(fields), byref(PlacementFields(*placement))))
        self._fetch_turn = self._post_turn = MAX_QUEUES - 1

    def own_opcode(self, opcode: int) -> None:
        """From now on the admin commands of this opcode are the device's."""
        checked(self._alone("own_opcode", u8(opcode=opcode)))

    def own_feature(self, fid: int) -> None:
        """From now on Set and Get Features of this feature identifier are the device's."""
        checked(self._alone("own_feature", u8(fid=fid)))

    def set_depth(self, qid: int, depth: int) -> None:
        """From now on at most `depth` commands of a submission queue hold a slot, each from its fetch until its completion is
        posted."""
        checked(self._alone("set_depth", u16(qid=qid), u16(depth=depth)))

    def hold(self, qid: int, on: bool) -> None:
        """Leaves a queue out of arbitration, or takes it in again."""
        checked(self._alone("hold", u16(qid=qid), u8(on=on)))

    def set_class(self, qid: int, priority: Priority) -> None:
        """Gives an I/O queue another priority class than its Create asked for."""
        checked(self._alone("set_class", u16(qid=qid), u16(priority=priority)))

    def sq_tail(self, qid: int, tail: int) -> None:
        """The host wrote the tail doorbell of a submission queue. Refused as an invalid doorbell write is."""
        checked(self._alone("sq_tail", u16(qid=qid), u16(tail=tail)))

    def cq_head(self, cqid: int, head: int) -> None:
        """The host wrote the head doorbell of a completion queue. Refused as an invalid doorbell write is."""
        checked(self._alone("cq_head", u16(cqid=cqid), u16(head=head)))

    def fetch(self, qid: int) -> Optional[int]:
        """The slot of the ring of a submission queue whose entry is fetched next, if there is one."""
        return self._number("fetch", u16(qid=qid))

    def next_fetch(self, last: int = MAX_QUEUES - 1) -> Optional[tuple[int, int]]:
        """The next submission queue that has an entry to fetch, and its slot. Queues take turns by ascending identifier, 0
        after 64, beginning behind `last`. Told the one before each time, they come within 65 calls while they have some."""
        qid, slot = u16(last=last), c_uint16()
        found = self._is_found(self._alone("next_fetch", byref(qid), byref(slot)))
        return (qid.value, slot.value) if found else None

    def to_fetch(self) -> Iterator[tuple[int, int]]:
        """The submission queues that have an entry to fetch, in turn, each with its slot: from behind the queue that was told
        last, by an earlier iteration too. Each entry is to be fetched before the next one is asked for."""
        while (found := self.next_fetch(self._fetch_turn)) is not None:
            self._fetch_turn = found[0]
            yield found

    def fetched(self, qid: int, entry: bytes, cookie: int = 0, slot: Optional[int] = None) -> None:
        """The entry in the slot that `fetch` told was read: its command waits to be picked. With `slot`, where the entry was
        read, it is refused if `fetch` tells another."""
        data = (c_uint8 * 64)(*sized(entry, 64))
        if slot is None:
            checked(self._call("fetched", u16(qid=qid), data, u32(cookie=cookie)))
        else:
            checked(self._call("fetched_at", u16(qid=qid), u16(slot=slot), data, u32(cookie=cookie)))

    def peek(self) -> Optional[Pick]:
        """The pick that arbitration makes next with any room, whether or not it can be made already."""
        pick = PickFields()
        return pick_of(pick) if self._found("peek", byref(pick)) else None

    def pick(self, room: int = NO_LIMIT) -> Step:
        """Makes the next pick of arbitration, of at most `room` commands: as many as the device can take now. An admin
        command that isn't the device's is carried out at once."""
        step = StepFields()
        code = self._call("pick", u16(room=room), byref(step))
        if code in (NONE, BUSY, NOROOM):
            return Waits({NONE: "idle", BUSY: "busy", NOROOM: "no room"}[code])
        checked(code)
        return step_of(step)

    def picks(self, room: int = NO_LIMIT) -> Iterator[Step]:
        """Picks as long as something can be picked, at most `room` commands at a time."""
        while not isinstance(step := self.pick(room), Waits):
            yield step

    def take(self) -> Optional[Command]:
        """The device takes the oldest of the commands that are picked and not taken."""
        command = CommandFields()
        found = self._found("take", byref(command))
        return Command(sqe_of(command.entry), command.cookie, command.tag) if found else None

    def complete(
        self, tag: int, status: Status = Status(), dw0: int = 0, do_not_retry: bool = False, more: bool = False
    ) -> None:
        """The device completes a command, whose completion is ready then. Refused where it has none under this tag."""
        flags = do_not_retry + 2 * more
        in_range(8, sct=status.sct, sc=status.sc)
        fields = StatusFields(*status)
        checked(self._call("complete_with", u32(tag=tag), byref(fields), u32(dw0=dw0), u8(flags=flags)))

    def post(self, cqid: int) -> Optional[Post]:
        """The completion that became ready first in a completion queue, if it has room for it."""
        post = PostFields()
        found = self._found("post", u16(cqid=cqid), byref(post))
        return Post(bytes(post.bytes), post.cookie, post.tag, post.slot) if found else None

    def next_to_post(self, last: int = MAX_QUEUES - 1) -> Optional[int]:
        """The next completion queue of which `post` gives a completion. Queues take turns as those of `next_fetch`."""
        cqid = u16(last=last)
        return cqid.value if self._found("next_to_post", byref(cqid)) else None

    def posts(self) -> Iterator[tuple[int, Post]]:
        """The completions that can be posted, each with its completion queue: those of one queue after those of another, from
        behind the queue that was told last, by an earlier iteration too."""
        while (cqid := self.next_to_post(self._post_turn)) is not None:
            self._post_turn = cqid
            while (post := self.post(cqid)) is not None:
                yield cqid, post

    def finish(self) -> Optional[int]:
        """Finishes a deletion of a submission queue, all of whose commands have their completions posted."""
        qid = c_uint16()
        return qid.value if self._found("finish", byref(qid)) else None

    def named(self, qid: int, cid: int) -> Optional[int]:
        """The tag of the command of this queue and command identifier that the device has."""
        tag = c_uint32()
        return tag.value if self._found("named", u16(qid=qid), u16(cid=cid), byref(tag)) else None

    def waiting(self, qid: int) -> Optional[int]:
        """How many commands of an open submission queue were fetched and wait to be picked."""
        return self._number("waiting", u16(qid=qid))

    def seen(self) -> list[Seen]:
        """The open submission queues as the next pick is shown them, so that a `Judge` can look at it."""
        found, fields = [], SeenFields()
        for qid in range(MAX_QUEUES):
            if self._alone("seen", u16(qid=qid), byref(fields)) == OK:
                found.append(Seen(fields.qid, Priority(fields.priority), fields.count))
        return found

    def verify(self) -> None:
        """Looks whether something else wrote into the controller: refused where that is found, as most is."""
        checked(self._call("verify"))

    def _alone(self, name: str, *words: Any) -> int:
        return getattr(library(), f"nvmearb_ctrl_{name}")(byref(self._ctrl), *words)

    def _call(self, name: str, *words: Any) -> int:
        return self._alone(name, self._slots, c_size_t(len(self._slots)), *words)

    @staticmethod
    def _is_found(code: int) -> bool:
        """Whether a call answered something, by its code."""
        if code != NONE:
            checked(code)
        return code == OK

    def _found(self, name: str, *words: Any) -> bool:
        """So of a call that is given the slots."""
        return self._is_found(self._call(name, *words))

    def _number(self, name: str, qid: ctypes.c_uint16) -> Optional[int]:
        number = c_uint16()
        return number.value if self._is_found(self._alone(name, qid, byref(number))) else None


def step_of(step: StepFields) -> Step:
    if step.kind != 2:
        return (Picked if step.kind == 1 else Passed)(pick_of(step.pick))
    it, asked = step.answer, step.asked
    return CarriedOut(
        VERDICTS[it.verdict], Status(it.status.sct, it.status.sc), it.dw0, it.qid, it.cqid, Priority(it.priority),
        it.cid, asked.address, asked.qsize, asked.vector, bool(asked.interrupts),
    )
