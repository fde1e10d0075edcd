# SPDX-License-Identifier: MIT
"""QEMU's own NVMe device without a guest, and a driver of it by QEMU's qtest protocol, over standard input and output. The
machine's processor never starts. The driver notes what it puts and takes and each doorbell, as tools/qemulog reads it."""
import json
import struct
import subprocess
import threading
import time
from collections import namedtuple

# Where the device's registers lie, and the rings: a page for each, and one for data.
BAR, ASQ, ACQ, DATA, SQS, CQS = 0xF0000000, 0x100000, 0x110000, 0x120000, 0x200000, 0x300000
CC, CSTS, AQA, ADDRESSES, DOORBELLS, ENABLED = 0x14, 0x1C, 0x24, 0x28, 0x1000, 0x460001
# The device's function in the configuration space, and two registers there, with their values.
FUNCTION, CONFIGURATION = 0x80002000, {0x10: BAR, 0x04: 6}
WORDS = "-nodefaults -display none -S -m 16 -accel tcg -qtest stdio -qtest-log none".split()
ADMIN_SLOTS = 64
DELETE_SQ, CREATE_SQ, READ, DELETE_CQ, CREATE_CQ, ABORT = 0, 1, 2, 4, 5, 8
# How long the device may take to answer all commands, and a whole run, in seconds.
ANSWERED, WHOLE = 20, 60

Completion = namedtuple("Completion", "head sq cid status")


class Ring:
    """A queue as the driver has it: the next slot is its tail or its head. Of a submission queue also the head that was told
    last, how many commands were put, and how many of them are answered."""

    def __init__(self, number, address, slots):
        self.number, self.address, self.slots = number, address, slots
        self.next, self.phase, self.head, self.put, self.answered = 0, 1, 0, 0, 0

    def advance(self):
        self.next = (self.next + 1) % self.slots
        self.phase ^= self.next == 0

    def room(self):
        return (self.head - self.next - 1) % self.slots


class Driver:
    """A machine with the device, whose controller it enables. A read takes `latency` nanoseconds."""

    def __init__(self, folder, latency=0):
        self.trace, self.notes = f"{folder}/trace", []
        self.asq, self.acq = Ring(0, ASQ, ADMIN_SLOTS), Ring(0, ACQ, ADMIN_SLOTS)
        self.sqs = {0: self.asq}
        disk = ["-drive", f"driver=null-co,read-zeroes=on,size=1M,latency-ns={latency},if=none,id=disk"]
        device = ["-device", "nvme,serial=1,drive=disk,addr=4,max_ioqpairs=16", "-trace", "pci_nvme*", "-D", self.trace]
        pipes = {"stdin": subprocess.PIPE, "stdout": subprocess.PIPE, "stderr": subprocess.PIPE, "bufsize": 0}
        self.qemu = subprocess.Popen(["qemu-system-x86_64", *WORDS, *disk, *device], **pipes)
        self.watch = threading.Timer(WHOLE, self.qemu.kill)
        self.watch.start()

    def __enter__(self):
        try:
            self.enable()
        except BaseException:
            self.__exit__()
            raise
        return self

    def __exit__(self, *_):
        self.watch.cancel()
        self.qemu.terminate()
        self.qemu.communicate()

    def ask(self, *commands):
        """Sends commands at once, between which the device does nothing, and gives what the last one answers."""
        try:
            self.qemu.stdin.write("".join(f"{it}\n" for it in commands).encode())
        except BrokenPipeError:
            pass
        for it in commands:
            said = self.qemu.stdout.readline().decode()
            assert said.startswith("OK"), f"QEMU answers {it}: {said or self.qemu.stderr.read().decode()}"
        return said[2:].strip()

    def enable(self):
        for register, value in CONFIGURATION.items():
            self.ask(f"outl 0xcf8 {FUNCTION | register}", f"outl 0xcfc {value}")
        self.ask(f"writel {BAR + AQA} {(ADMIN_SLOTS - 1) * 0x10001}")
        self.ask(f"writeq {BAR + ADDRESSES} {ASQ}", f"writeq {BAR + ADDRESSES + 8} {ACQ}", f"writel {BAR + CC} {ENABLED}")
        assert int(self.ask(f"readl {BAR + CSTS}"), 0) == 1, "the controller isn't ready"

    def settle(self):
        """Lets the device do what it has to do: it goes on between any two that are sent."""
        for _ in range(50):
            self.ask(f"readl {BAR + CSTS}")

    def submit(self, sq, opcode, cid=None, nsid=0, prp=0, cdw10=0, cdw11=0):
        """Puts a command into the next slot. It has its number as CID, unless another is given. No doorbell is written."""
        cid = sq.put & 0xFFFF if cid is None else cid
        entry = struct.pack("<BxHI16xQ8x6I", opcode, cid, nsid, prp, cdw10, cdw11, 0, 0, 0, 0)
        self.ask(f"write {sq.address + 64 * sq.next} 64 0x{entry.hex()}")
        self.notes.append({"submit": sq.number, "slot": sq.next, "sqe": entry.hex()})
        sq.put += 1
        sq.advance()

    def read(self, sq, count=1, cid=None):
        """Puts commands that read a block."""
        for _ in range(count):
            self.submit(sq, READ, cid, nsid=1, prp=DATA)

    def bells(self, kind, *places):
        """Writes doorbells at once: of which queues, and with what slots."""
        self.notes += [{kind: number, "slot": slot} for number, slot in places]
        self.ask(*(f"writel {BAR + DOORBELLS + 8 * number + 4 * (kind == 'head')} {slot}" for number, slot in places))

    def ring(self, *sqs):
        self.bells("tail", *((sq.number, sq.next) for sq in sqs))

    def take(self, cq, most=None):
        """Takes the completions that have come, or the first ones, writes the doorbell, and gives them."""
        raw, taken = bytes.fromhex(self.ask(f"read {cq.address} {16 * cq.slots}")[2:]), []
        while most is None or len(taken) < most:
            entry = raw[16 * cq.next : 16 * cq.next + 16]
            head, number, cid, word = struct.unpack_from("<4H", entry, 8)
            if word & 1 != cq.phase:
                break
            self.notes.append({"complete": cq.number, "slot": cq.next, "cqe": entry.hex()})
            taken.append(Completion(head, number, cid, word >> 1))
            self.sqs[number].head, self.sqs[number].answered = head, self.sqs[number].answered + 1
            cq.advance()
        if taken:
            self.bells("head", (cq.number, cq.next))
        return taken

    def finish(self, sqs, cqs):
        """Takes completions until all commands of these queues are answered, and gives them."""
        taken, end = [], time.monotonic() + ANSWERED
        while any(sq.answered < sq.put for sq in sqs):
            assert time.monotonic() < end, f"answered: {[(sq.number, sq.answered, sq.put) for sq in sqs]}"
            found = [it for cq in cqs for it in self.take(cq)]
            taken += found
            if not found:
                time.sleep(0.001)
        return taken

    def admin(self, opcode, **fields):
        """Does an admin command, and gives its status."""
        self.submit(self.asq, opcode, **fields)
        self.ring(self.asq)
        return self.finish([self.asq], [self.acq])[-1].status

    def create_cq(self, number, slots):
        cq = Ring(number, CQS + 0x1000 * number, slots)
        self.ask(f"memset {cq.address} {16 * slots} 0")
        status = self.admin(CREATE_CQ, prp=cq.address, cdw10=slots - 1 << 16 | number, cdw11=1)
        assert status == 0, f"Create I/O Completion Queue {number} is answered {status:x}h"
        return cq

    def create_sq(self, number, slots, cq):
        sq = self.sqs[number] = Ring(number, SQS + 0x1000 * number, slots)
        status = self.admin(CREATE_SQ, prp=sq.address, cdw10=slots - 1 << 16 | number, cdw11=cq.number << 16 | 1)
        assert status == 0, f"Create I/O Submission Queue {number} is answered {status:x}h"
        return sq

    def write_notes(self, name):
        with open(name, "w", encoding="utf-8") as file:
            file.writelines(json.dumps(it, separators=(",", ":")) + "\n" for it in self.notes)
