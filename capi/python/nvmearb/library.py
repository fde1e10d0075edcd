# SPDX-License-Identifier: MIT
"""The shared library: where it lies, its structs, and the answers of its calls."""
import ctypes
import functools
import os
import pathlib
from ctypes import Structure, c_size_t, c_uint8, c_uint16, c_uint32, c_uint64

VERSION = "0.2.0"
SONAME = "libnvmearb.so.0.2"
# NVMEARB_UNPROVED of the header, and the variable that is 1 where such a library is taken.
UNPROVED, ALLOWED = 0x80000000, "NVMEARB_ALLOW_UNPROVED"

OK, NONE, ESTATE, BUSY, NOROOM = 0, 1, 3, 7, 8
# The answers that refuse a call.
NAMES = {
    1: "NVMEARB_NONE: there is no such queue or command",
    2: "NVMEARB_EARG: an argument isn't valid",
    3: "NVMEARB_ESTATE: the state isn't valid",
    4: "NVMEARB_EUSED: another region has this address",
    5: "NVMEARB_EMANY: no region of this kind can be added",
    6: "NVMEARB_ESIZE: a region has 2 to 4096 slots",
    9: "NVMEARB_ESLOT: the entry of another slot is to be fetched next",
}


class Refused(ValueError):
    """A call that did nothing. `code` is its answer, by its number in the header."""

    def __init__(self, code: int) -> None:
        super().__init__(NAMES.get(code, f"answer {code}"))
        self.code = code


class SqeFields(Structure):
    _fields_ = [
        ("opcode", c_uint8), ("flags", c_uint8), ("cid", c_uint16), ("nsid", c_uint32), ("cdw2", c_uint32),
        ("cdw3", c_uint32), ("mptr", c_uint64), ("prp1", c_uint64), ("prp2", c_uint64), ("cdw10", c_uint32),
        ("cdw11", c_uint32), ("cdw12", c_uint32), ("cdw13", c_uint32), ("cdw14", c_uint32), ("cdw15", c_uint32),
    ]


class StatusFields(Structure):
    _fields_ = [("sct", c_uint8), ("sc", c_uint8)]


class CqeFields(Structure):
    _fields_ = [
        ("dw0", c_uint32), ("sqhd", c_uint16), ("sqid", c_uint16), ("cid", c_uint16), ("phase", c_uint8),
        ("status", StatusFields),
    ]


class ArbiterState(Structure):
    _fields_ = [("mechanism", c_uint32), ("cdw11", c_uint32), ("last", c_uint32 * 6), ("used", c_uint16 * 3)]


class SeenFields(Structure):
    _fields_ = [("qid", c_uint16), ("priority", c_uint16), ("count", c_uint16)]


class PickFields(Structure):
    _fields_ = [("qid", c_uint16), ("n", c_uint16), ("fresh", c_uint16)]


class RegionFields(Structure):
    _fields_ = [("address", c_uint64), ("slots", c_uint16)]


class AnswerFields(Structure):
    _fields_ = [
        ("verdict", c_uint32), ("dw0", c_uint32), ("cdw11", c_uint32), ("qid", c_uint16), ("region", c_uint16),
        ("cqid", c_uint16), ("priority", c_uint16), ("status", StatusFields), ("cid", c_uint16),
    ]


class SlotState(Structure):
    _fields_ = [("words", c_uint64 * 11)]


class CtrlState(Structure):
    _fields_ = [("mark", c_uint64), ("count", c_size_t), ("words", c_uint64 * 750)]


class ConfigFields(Structure):
    _fields_ = [
        ("asq", RegionFields), ("acq", RegionFields), ("mechanism", c_uint32), ("cdw11", c_uint32), ("nsq", c_uint16),
        ("ncq", c_uint16), ("depth", c_uint16), ("admin_depth", c_uint16),
    ]


class PlacementFields(Structure):
    _fields_ = [("page", c_uint32), ("mqes", c_uint16), ("vectors", c_uint16)]


class AskedFields(Structure):
    _fields_ = [("address", c_uint64), ("qsize", c_uint16), ("vector", c_uint16), ("interrupts", c_uint16)]


class StepFields(Structure):
    _fields_ = [("kind", c_uint32), ("answer", AnswerFields), ("pick", PickFields), ("asked", AskedFields)]


class CommandFields(Structure):
    _fields_ = [("entry", SqeFields), ("cookie", c_uint32), ("tag", c_uint32)]


class PostFields(Structure):
    _fields_ = [("bytes", c_uint8 * 16), ("cookie", c_uint32), ("tag", c_uint32), ("slot", c_uint16)]


# The states, by their numbers for nvmearb_size, that the package makes.
STATES = {1: ("nvmearb_arbiter", ArbiterState), 4: ("nvmearb_ctrl", CtrlState), 5: ("nvmearb_slot", SlotState)}


def place() -> str:
    """The library that NVMEARB_LIBRARY names, or that in the package's wheel or prefix, or the system's."""
    named = os.environ.get("NVMEARB_LIBRARY")
    beside = [folder / "lib" / SONAME for folder in pathlib.Path(__file__).resolve().parents]
    return named or next((str(it) for it in beside if it.exists()), SONAME)


def check_version(name: str, number: int) -> None:
    version = f"{number >> 16}.{number >> 8 & 0xff}.{number & 0xff}"
    if version != VERSION:
        raise ImportError(f"{name} is of version {version}, and not {VERSION}")


@functools.lru_cache(maxsize=None)
def library() -> ctypes.CDLL:
    """The library, which has to be of this package's version, proved or allowed, with states of its sizes."""
    try:
        loaded = ctypes.CDLL(place())
    except OSError as why:
        raise ImportError(f"{why}: set NVMEARB_LIBRARY to the file {SONAME}, with its folder") from why
    loaded.nvmearb_version.restype = c_uint32
    number = loaded.nvmearb_version()
    check_version("libnvmearb", number & ~UNPROVED)
    if number & UNPROVED and os.environ.get(ALLOWED) != "1":
        raise ImportError(f"libnvmearb is an unproved build (README, Install), which {ALLOWED}=1 takes")
    for state, (name, fields) in STATES.items():
        if loaded.nvmearb_size(state) != ctypes.sizeof(fields):
            raise ImportError(
                f"{name} has {loaded.nvmearb_size(state)} bytes in libnvmearb, and not {ctypes.sizeof(fields)}"
            )
    return loaded


def in_range(bits: int, **numbers: int) -> None:
    """Refuses numbers that ctypes would cut off."""
    for name, number in numbers.items():
        if not 0 <= number < 1 << bits:
            raise ValueError(f"{name} is {number}, and not a number of {bits} bits")


def u8(**number: int) -> c_uint8:
    in_range(8, **number)
    return c_uint8(*number.values())


def u16(**number: int) -> c_uint16:
    in_range(16, **number)
    return c_uint16(*number.values())


def u32(**number: int) -> c_uint32:
    in_range(32, **number)
    return c_uint32(*number.values())


def checked(code: int) -> None:
    if code != OK:
        raise Refused(code)
