# SPDX-License-Identifier: MIT
"""Entries by their fields."""
from __future__ import annotations

import ctypes
from dataclasses import asdict, dataclass, field
from typing import NamedTuple

from .library import CqeFields, SqeFields, checked, in_range, library


class Status(NamedTuple):
    """A status: its type and its code. Status() is success."""

    sct: int = 0
    sc: int = 0

    def __str__(self) -> str:
        return f"{self.sct}/{self.sc:02x}"


@dataclass
class Sqe:
    """The fields of a submission queue entry."""

    opcode: int = 0
    cid: int = 0
    nsid: int = 0
    prp1: int = 0
    prp2: int = 0
    cdw10: int = 0
    cdw11: int = 0
    cdw12: int = 0
    cdw13: int = 0
    cdw14: int = 0
    cdw15: int = 0
    flags: int = 0
    cdw2: int = 0
    cdw3: int = 0
    mptr: int = 0

    def to_bytes(self) -> bytes:
        """The 64 bytes of the entry."""
        for name, kind in SqeFields._fields_:
            in_range(8 * ctypes.sizeof(kind), **{name: getattr(self, name)})
        made = (ctypes.c_uint8 * 64)()
        library().nvmearb_sqe_encode(ctypes.byref(SqeFields(**asdict(self))), made)
        return bytes(made)

    @staticmethod
    def from_bytes(entry: bytes) -> Sqe:
        """The fields of 64 bytes."""
        fields = SqeFields()
        library().nvmearb_sqe_decode((ctypes.c_uint8 * 64)(*sized(entry, 64)), ctypes.byref(fields))
        return sqe_of(fields)


@dataclass
class Cqe:
    """The fields of a completion queue entry, and its flags, Do Not Retry and More."""

    cid: int = 0
    status: Status = field(default_factory=Status)
    dw0: int = 0
    sqhd: int = 0
    sqid: int = 0
    phase: int = 0
    do_not_retry: bool = False
    more: bool = False

    @staticmethod
    def from_bytes(entry: bytes) -> Cqe:
        """The fields of 16 bytes. Refused if a bit is set that has no field."""
        fields, flags = CqeFields(), ctypes.c_uint8()
        data = (ctypes.c_uint8 * 16)(*sized(entry, 16))
        checked(library().nvmearb_cqe_decode_with(data, ctypes.byref(fields), ctypes.byref(flags)))
        do_not_retry, more = bool(flags.value & 1), bool(flags.value & 2)
        status = Status(fields.status.sct, fields.status.sc)
        return Cqe(fields.cid, status, fields.dw0, fields.sqhd, fields.sqid, fields.phase, do_not_retry, more)


def sized(entry: bytes, length: int) -> bytes:
    if len(entry) != length:
        raise ValueError(f"an entry has {length} bytes, and not {len(entry)}")
    return entry


def sqe_of(fields: SqeFields) -> Sqe:
    return Sqe(**{name: getattr(fields, name) for name, _ in SqeFields._fields_})
