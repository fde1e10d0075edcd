# SPDX-License-Identifier: MIT
"""The queues of an NVMe controller, over the shared library libnvmearb, whose every function is proved, for tests of
one's own firmware or emulator. Terms are those of the NVM Express Base Specification 2.0.

`Judge` compares each pick of an arbiter with the lawful one while a test makes it. `Arbiter` picks itself, and
`Controller` is the front of a whole controller. The header nvmearb.h tells what each call does, and in which order
calls come.
"""
from .arbiter import NO_LIMIT, Arbiter, Mechanism, Pick, Priority, Seen
from .controller import CarriedOut, Command, Config, Controller, Passed, Picked, Placement, Post, Step, Waits
from .entries import Cqe, Sqe, Status
from .judge import Differs, Judge, SpecJudge
from .library import VERSION, Refused

__version__ = VERSION
__all__ = [
    "Arbiter", "CarriedOut", "Command", "Config", "Controller", "Cqe", "Differs", "Judge", "Mechanism", "NO_LIMIT",
    "Passed", "Pick", "Picked", "Placement", "Post", "Priority", "Refused", "Seen", "SpecJudge", "Sqe", "Status",
    "Step", "Waits",
]
