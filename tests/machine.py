# SPDX-License-Identifier: MIT
"""A machine without a processor: the other end of capi/examples/qemu.c, by the messages of QEMU's multi-process protocol.
It tests there what a guest can't do, or can't see without KVM. tests/guest starts the device with it, as

  DEVICE -n 1 python3 tests/machine.py

and takes over its rows, as it does those of tests/c/guest.c."""
import mmap
import os
import select
import socket
import struct

SYNC_MEMORY, REPLY, CONFIG_WRITE, CONFIG_READ, BAR_WRITE, BAR_READ, SET_IRQFD, RESET = range(8)
BASE, SIZE, ASQ, ACQ, DATA = 0x100000, 0x100000, 0x101000, 0x102000, 0x103000
CC, CSTS, AQA, ENABLED, MASTER, DISABLED = 0x14, 0x1C, 0x24, 0x460001, 0x06, 0x400

wire = socket.socket(fileno=3)
memory_fd = os.memfd_create("memory")
os.ftruncate(memory_fd, SIZE)
memory = mmap.mmap(memory_fd, SIZE)
raised, lowered = os.eventfd(0, os.EFD_NONBLOCK), os.eventfd(0, os.EFD_NONBLOCK)


def send(command, body=b"", fds=()):
    socket.send_fds(wire, [struct.pack("<i4xQ", command, len(body)) + body], list(fds))


def answer():
    told = wire.recv(24, socket.MSG_WAITALL)
    command, size, value = struct.unpack("<i4xQQ", told)
    assert (command, size) == (REPLY, 8), f"the reply is {told.hex()}"
    return value


def config(address, length, value=None):
    """Reads the configuration space, or writes there."""
    send(CONFIG_READ if value is None else CONFIG_WRITE, struct.pack("<IIi", address, value or 0, length))
    return answer()


def bar(offset, value=None, size=4):
    """Reads a register, or writes it. A write is done once the next read is answered."""
    send(BAR_READ if value is None else BAR_WRITE, struct.pack("<QQI?3x", offset, value or 0, size, True))
    return answer()


def is_raised():
    """Whether an interrupt came. It is taken."""
    bar(CSTS)
    if not select.select([raised], [], [], 0)[0]:
        return False
    os.eventfd_read(raised)
    return True


def enable():
    """Enables the controller, with admin queues of eight slots."""
    memory.seek(0)
    memory.write(bytes(SIZE))
    config(0x04, 2, MASTER)
    bar(AQA, 7 << 16 | 7)
    bar(0x28, ASQ, 8)
    bar(0x30, ACQ, 8)
    bar(CC, ENABLED)
    assert bar(CSTS) == 1, f"CSTS is {bar(CSTS):x}"


def identify(slot):
    """Sends Identify by a slot of the admin queue, and gives the serial number."""
    entry = struct.pack("<BBHIQQQQIIIIII", 6, 0, slot, 0, 0, 0, DATA, 0, 1, 0, 0, 0, 0, 0)
    memory[ASQ - BASE + 64 * slot : ASQ - BASE + 64 * slot + 64] = entry
    bar(0x1000, slot + 1)
    bar(CSTS)
    done = memory[ACQ - BASE + 16 * slot : ACQ - BASE + 16 * slot + 16]
    assert struct.unpack("<HH", done[12:16]) == (slot, 1), f"the completion is {done.hex()}"
    return memory[DATA - BASE + 4 : DATA - BASE + 24].decode().strip()


def interrupt_disable():
    enable()
    assert not is_raised()
    assert identify(0) == "1" and is_raised(), "no interrupt"
    bar(0x1004, 1)
    config(0x04, 2, MASTER | DISABLED)
    identify(1)
    assert not is_raised(), "an interrupt, though they are disabled"
    assert config(0x06, 2) & 8, "Interrupt Status isn't set"
    config(0x04, 2, MASTER)
    assert is_raised(), "no interrupt once they are enabled"
    bar(0x1004, 2)
    bar(CSTS)
    assert not config(0x06, 2) & 8, "Interrupt Status is set"
    return "held back, and sent once it is cleared"


def function_reset():
    enable()
    config(0x10, 4, 0xFEB00000)
    config(0x3C, 1, 11)
    identify(0)
    bar(CC, ENABLED & ~1)
    bar(CC, ENABLED & ~1 | 1 << 14)
    assert bar(CSTS) >> 2 & 3 == 2, f"CSTS is {bar(CSTS):x} after a shutdown"
    send(RESET)
    answer()
    for offset in (CC, CSTS, AQA, 0x28, 0x2C, 0x30, 0x34):
        assert bar(offset) == 0, f"register {offset:x}h is {bar(offset):x}"
    assert config(0x10, 4) == 0 and config(0x04, 2) == 0 and config(0x3C, 1) == 0, "the configuration isn't reset"
    assert bar(0x08) == 0x20000 and config(0x00, 2) == 0x1234, "what doesn't change has changed"
    enable()
    assert identify(0) == "1"
    return "seven registers, BAR 0, the command and the line, and enabled again"


send(SYNC_MEMORY, struct.pack("<8Q8Q8q", BASE, *[0] * 7, SIZE, *[0] * 7, *[0] * 8), [memory_fd])
send(SET_IRQFD, b"", [raised, lowered])
for name, test in {"interrupt disable": interrupt_disable, "a reset of the function": function_reset}.items():
    try:
        print(f"row {name}: {test()}", flush=True)
    except AssertionError as why:
        print(f"bad {name}: {why}", flush=True)
    bar(CC, 0)
