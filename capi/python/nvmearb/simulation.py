# SPDX-License-Identifier: MIT
"""A controller in virtual time, by step: hosts whose commands come at random times or as a test hands them in, the proved
controller, and a device of channels, whose services a test may set. It is what `nvmearb simulate` does, over the library
libnvmearb_sim, which stands beside libnvmearb and isn't proved but for the controller. The header nvmearb_sim.h tells what
each call does. Times are whole picoseconds.

>>> queues = [Queue(closed(8), read=exponential(80 * US), priority=it) for it in (Priority.HIGH, Priority.LOW)]
>>> done = Simulation(Model(queues, channels=4, cdw11=0x07000000, commands=1000)).run()  # weights: high 8, low 1
>>> len(done), all(it.latency >= it.service for it in done)
(1000, True)
"""
from __future__ import annotations

import ctypes
import functools
import os
import pathlib
from collections.abc import Iterable, Sequence
from ctypes import Structure, byref, c_size_t, c_uint16, c_uint32, c_uint64
from enum import IntEnum
from typing import Any, NamedTuple, Optional

from .arbiter import Mechanism, Pick, Priority, pick_of
from .library import NONE, OK, PickFields, Refused, check_version, in_range, library, place, u16, u32

NS, US, MS, S = 1_000, 1_000_000, 1_000_000_000, 1_000_000_000_000
# What NVMEARB_SIM_LATER and a step without an end say.
LATER = FOREVER = 2**64 - 1
FAULTS = {
    8: "NVMEARB_NOROOM: as many commands as `outstanding` came, or are to come, and aren't done",
    16: "NVMEARB_SIM_ELONG: a time would be 2^64 picoseconds or more",
    17: "NVMEARB_SIM_EMANY: more commands came and aren't done than `outstanding` allows",
    18: "NVMEARB_SIM_EBROKEN: something happened that never does",
}


class ServiceFields(Structure):
    _fields_ = [("time", c_uint64), ("rare", c_uint64), ("one_in", c_uint64), ("per_block", c_uint64), ("spread", c_uint32)]


class QueueFields(Structure):
    _fields_ = [
        ("gap", c_uint64), ("on", c_uint64), ("off", c_uint64), ("arrivals", c_uint32), ("closed", c_uint32),
        ("priority", c_uint16), ("slots", c_uint16), ("reads", c_uint32), ("writes", c_uint32), ("flushes", c_uint32),
        ("blocks", c_uint32), ("sequential", c_uint32), ("read", ServiceFields), ("write", ServiceFields),
        ("flush", ServiceFields),
    ]


class ConfigFields(Structure):
    _fields_ = [
        ("stripe", c_uint64), ("size", c_uint64), ("pause_every", c_uint64), ("pause_length", c_uint64), ("seed", c_uint64),
        ("commands", c_uint64), ("until", c_uint64), ("warm_up", c_uint64), ("mechanism", c_uint32), ("cdw11", c_uint32),
        ("queues", c_uint32), ("channels", c_uint32), ("depth", c_uint32), ("outstanding", c_uint32),
    ]


class CommandFields(Structure):
    _fields_ = [
        ("number", c_uint64), ("block", c_uint64), ("service", c_uint64), ("came", c_uint64), ("submitted", c_uint64),
        ("picked", c_uint64), ("started", c_uint64), ("done", c_uint64), ("blocks", c_uint32), ("channel", c_uint32),
        ("queue", c_uint16), ("operation", c_uint16), ("counts", c_uint32),
    ]


class HappeningFields(Structure):
    _fields_ = [
        ("time", c_uint64), ("kind", c_uint32), ("channel", c_uint32), ("room", c_uint32), ("pick", PickFields),
        ("command", CommandFields),
    ]


class NumbersFields(Structure):
    _fields_ = [
        (name, c_uint64) for name in (
            "commands", "blocks", "latency_mean", "latency_max", "host_mean", "arbitration_mean", "device_mean",
            "service_mean",
        )
    ]


class Operation(IntEnum):
    """What a command does, by its opcode."""

    FLUSH = 0
    WRITE = 1
    READ = 2


class Service(NamedTuple):
    """How long a command runs: `fixed`, `exponential` or `two_points`."""

    time: int = 0
    rare: int = 0
    one_in: int = 0
    per_block: int = 0
    spread: int = 0


def fixed(time: int, per_block: int = 0) -> Service:
    """Each command takes `time`, and `per_block` for each of its blocks."""
    return Service(time, per_block=per_block)


def exponential(mean: int, per_block: int = 0) -> Service:
    """Exponential times of a mean, and `per_block` for each block."""
    return Service(mean, per_block=per_block, spread=1)


def two_points(usual: int, rare: int, one_in: int, per_block: int = 0) -> Service:
    """`rare` with a probability of 1 / `one_in`, else `usual`; and `per_block` for each block."""
    return Service(usual, rare, one_in, per_block, 2)


class Arrivals(NamedTuple):
    """When commands come: `poisson`, `every`, `bursts`, `closed` or GIVEN."""

    kind: int
    gap: int = 0
    on: int = 0
    off: int = 0
    closed: int = 0


# Commands come as `Simulation.come` says.
GIVEN = Arrivals(4)


def poisson(gap: int) -> Arrivals:
    """Commands come at exponential gaps of the mean `gap`."""
    return Arrivals(0, gap)


def every(gap: int) -> Arrivals:
    """Commands come at equal gaps."""
    return Arrivals(1, gap)


def bursts(gap: int, on: int, off: int) -> Arrivals:
    """As `poisson`, where time passes in on phases alone."""
    return Arrivals(2, gap, on, off)


def closed(count: int, think: int = 0) -> Arrivals:
    """`count` commands come at the start, and one by `think` behind each completion."""
    return Arrivals(3, think, closed=count)


class Queue(NamedTuple):
    """A submission queue with a completion queue of its own, and its host. `mix` are the shares of reads, writes and
    flushes; commands lie at any multiple of `blocks`, or each behind the one before."""

    arrivals: Arrivals
    read: Service = Service()
    write: Service = Service()
    flush: Service = Service()
    mix: tuple[int, int, int] = (1, 0, 0)
    priority: Priority = Priority.MEDIUM
    slots: int = 1024
    blocks: int = 8
    sequential: bool = False


class Model(NamedTuple):
    """What is simulated. `depth` is how many commands the device takes, by default as many as it has channels; `stripe`
    the blocks on a channel before those of the next one, 0 where a command runs on any; `outstanding` how many commands
    may have come that aren't done. `nvmearb_sim.h` tells the ranges."""

    queues: Sequence[Queue]
    channels: int = 1
    depth: Optional[int] = None
    mechanism: Mechanism = Mechanism.WEIGHTED
    cdw11: int = 0
    seed: int = 1
    commands: int = 100_000
    until: int = 0
    warm_up: int = 0
    stripe: int = 0
    size: int = 1_048_576
    pause_every: int = 0
    pause_length: int = 0
    outstanding: int = 65_536


class Command(NamedTuple):
    """A command. Times to which it hasn't come are 0. `service` is how long it runs: where its end was put off 0 until that
    is known."""

    queue: int
    number: int
    operation: Operation
    block: int
    blocks: int
    channel: int
    counts: bool
    service: int
    came: int
    submitted: int
    picked: int
    started: int
    done: int

    @property
    def latency(self) -> int:
        """From when its host had it until it had the completion."""
        return self.done - self.came


class Kind(IntEnum):
    """What happened in a step."""

    CAME = 1
    PICKED = 2
    STARTED = 3
    FINISHED = 4
    PAUSED = 5
    RESUMED = 6


class Happening(NamedTuple):
    """What happened in a step: `pick` and `room` of a pick, `channel` of a pause and its end, `command` of the others."""

    kind: Kind
    time: int
    channel: Optional[int] = None
    room: Optional[int] = None
    pick: Optional[Pick] = None
    command: Optional[Command] = None


class Numbers(NamedTuple):
    """Numbers of the commands that count and are done: means, rounded down, of their latencies and of the four parts."""

    commands: int
    blocks: int
    latency_mean: int
    latency_max: int
    host_mean: int
    arbitration_mean: int
    device_mean: int
    service_mean: int


def percentile(values: Iterable[int], part: float) -> int:
    """The least of the values that `part` per cent of them don't exceed, such as 99 or 99.9 (nearest rank).

    >>> percentile(range(1, 201), 99), percentile(range(1, 201), 99.9)
    (198, 200)
    """
    ordered, thousandths = sorted(values), round(part * 1000)
    if not ordered or not 0 < thousandths <= 100_000:
        raise ValueError(f"the {part}th percentile of {len(ordered)} values")
    return ordered[-(-len(ordered) * thousandths // 100_000) - 1]


@functools.lru_cache(maxsize=None)
def simulations() -> ctypes.CDLL:
    """The library libnvmearb_sim, beside libnvmearb, which has to be of this package's version."""
    library()
    there = pathlib.Path(place())
    name = there.name.replace("libnvmearb.so", "libnvmearb_sim.so")
    loaded = ctypes.CDLL(os.environ.get("NVMEARB_SIM_LIBRARY") or str(there.with_name(name) if there.parent.name else name))
    check_version("libnvmearb_sim", loaded.nvmearb_sim_version())
    loaded.nvmearb_sim_bytes.restype = c_size_t
    return loaded


class Failed(Refused):
    """A simulation that can't go on. `done` are the commands that the call had already."""

    def __init__(self, code: int) -> None:
        super().__init__(code)
        self.args = (FAULTS[code],)
        self.done: list[Command] = []


def checked(code: int) -> None:
    if code in FAULTS:
        raise Failed(code)
    if code != OK:
        raise Refused(code)


def service_of(it: Service) -> ServiceFields:
    in_range(64, time=it.time, rare=it.rare, one_in=it.one_in, per_block=it.per_block)
    in_range(32, spread=it.spread)
    return ServiceFields(*it)


def queue_of(it: Queue) -> QueueFields:
    when = it.arrivals
    reads, writes, flushes = it.mix
    in_range(64, gap=when.gap, on=when.on, off=when.off)
    in_range(32, arrivals=when.kind, closed=when.closed, reads=reads, writes=writes, flushes=flushes, blocks=it.blocks)
    in_range(16, slots=it.slots, priority=it.priority)
    return QueueFields(
        when.gap, when.on, when.off, when.kind, when.closed, it.priority, it.slots, *it.mix, it.blocks, it.sequential,
        service_of(it.read), service_of(it.write), service_of(it.flush),
    )


def config_of(it: Model) -> ConfigFields:
    depth = min(it.channels, 256) if it.depth is None else it.depth
    in_range(64, stripe=it.stripe, size=it.size, pause_every=it.pause_every, pause_length=it.pause_length, seed=it.seed)
    in_range(64, commands=it.commands, until=it.until, warm_up=it.warm_up)
    in_range(32, mechanism=it.mechanism, cdw11=it.cdw11, channels=it.channels, depth=depth, outstanding=it.outstanding)
    return ConfigFields(
        it.stripe, it.size, it.pause_every, it.pause_length, it.seed, it.commands, it.until, it.warm_up, it.mechanism,
        it.cdw11, len(it.queues), it.channels, depth, it.outstanding,
    )


def command_of(it: CommandFields) -> Command:
    return Command(
        it.queue, it.number, Operation(it.operation), it.block, it.blocks, it.channel, bool(it.counts), it.service, it.came,
        it.submitted, it.picked, it.started, it.done,
    )


def happening_of(it: HappeningFields) -> Happening:
    kind = Kind(it.kind)
    if kind == Kind.PICKED:
        return Happening(kind, it.time, room=it.room, pick=pick_of(it.pick))
    if kind in (Kind.PAUSED, Kind.RESUMED):
        return Happening(kind, it.time, channel=it.channel)
    return Happening(kind, it.time, command=command_of(it.command))


class Simulation:
    """A simulation at time 0, whose queues are created and to which no command came."""

    def __init__(self, model: Model) -> None:
        queues = (QueueFields * len(model.queues))(*(queue_of(it) for it in model.queues))
        config = config_of(model)
        count = simulations().nvmearb_sim_bytes(byref(config), queues)
        self._place(bytes(count))
        checked(simulations().nvmearb_sim_init(self._at, c_size_t(count), byref(config), queues))

    @classmethod
    def restored(cls, saved: bytes) -> Simulation:
        """The simulation whose bytes `save` gave, from there on."""
        it = cls.__new__(cls)
        it._place(bytes(saved))
        checked(it._call("verify", c_size_t(len(saved))))
        return it

    def save(self) -> bytes:
        """All of it, for `restored` of this version of the library."""
        return ctypes.string_at(self._at, self._count)

    def step(self, until: int = FOREVER) -> Optional[Happening]:
        """Goes on until something happens, or None where nothing does up to this time."""
        in_range(64, until=until)
        told = HappeningFields()
        code = self._call("step", c_uint64(until), byref(told))
        if code == NONE:
            return None
        checked(code)
        return happening_of(told)

    def next(self) -> Optional[int]:
        """A time before which nothing happens, or None where nothing is to come but by `come` and `end`."""
        time = c_uint64()
        code = self._call("next", byref(time))
        if code == NONE:
            return None
        checked(code)
        return time.value

    def serve(self, service: int = LATER) -> None:
        """Sets how long the command runs that the last step started. Without a service it runs until `end`."""
        in_range(64, service=service)
        checked(self._call("serve", c_uint64(service)))

    def end(self, channel: int, at: int) -> None:
        """The command on a channel, whose end was put off, ends at a time."""
        in_range(64, at=at)
        checked(self._call("end", u32(channel=channel), c_uint64(at)))

    def come(self, queue: int, at: int, operation: Operation = Operation.READ, block: int = 0, blocks: int = 8, service: int = 0) -> None:
        """A command comes to a queue of GIVEN arrivals. Refused where none may come any more."""
        in_range(64, at=at, block=block, service=service)
        in_range(32, blocks=blocks)
        in_range(16, queue=queue, operation=operation)
        given = CommandFields(came=at, operation=operation, block=block, blocks=blocks, service=service, queue=queue)
        checked(self._call("come", byref(given)))

    def run(self, count: int = FOREVER) -> list[Command]:
        """Steps until so many commands that count were done, or nothing more happens. These are the answer, or those of
        `Failed` that were done before."""
        done: list[Command] = []
        while len(done) < count:
            wanted = min(count - len(done), 4096)
            commands, n = (CommandFields * wanted)(), c_size_t()
            code = self._call("run", commands, c_size_t(wanted), byref(n))
            done += [command_of(it) for it in commands[:n.value]]
            if code in FAULTS:
                failed = Failed(code)
                failed.done = done
                raise failed
            checked(code)
            if n.value < wanted:
                break
        return done

    def numbers(self, queue: int = 0) -> Numbers:
        """The numbers of a queue, or of all."""
        fields = NumbersFields()
        checked(self._call("numbers_of", u16(queue=queue), byref(fields)))
        return Numbers(*(getattr(fields, name) for name in Numbers._fields))

    def busy(self, channel: int) -> int:
        """How long a channel ran commands, those that run until their end."""
        busy = c_uint64()
        checked(self._call("busy", u32(channel=channel), byref(busy)))
        return busy.value

    def _place(self, data: bytes) -> None:
        """Puts bytes at a multiple of 16."""
        self._memory, self._count = (ctypes.c_char * (len(data) + 16))(), len(data)
        self._at = ctypes.c_void_p(-(-ctypes.addressof(self._memory) // 16) * 16)
        ctypes.memmove(self._at, data, len(data))

    def _call(self, name: str, *words: Any) -> int:
        return getattr(simulations(), f"nvmearb_sim_{name}")(self._at, *words)
