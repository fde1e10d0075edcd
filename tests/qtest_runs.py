#!/usr/bin/env -S python3 -B
# SPDX-License-Identifier: MIT
"""Runs of QEMU's own NVMe device without a guest. tools/qemulog makes their logs.

  tests/qtest_runs.py NAME    prints the log of a run: rings, shared, order, admin, delfly, delring, delbell or hostile
"""
import random
import subprocess
import sys
import tempfile

from cases import TOP
from qtest import ABORT, CREATE_CQ, CREATE_SQ, DELETE_CQ, DELETE_SQ, Driver

# How long a read takes in `delfly`, in nanoseconds: longer than the driver takes to delete the queue.
LATENCY = 1_000_000_000


def load(driver, sqs, cqs):
    """Puts commands at random where there is room, and takes some completions. At the end it takes all."""
    chance = random.Random(1)
    for _ in range(12):
        for sq in sqs:
            driver.read(sq, chance.randint(0, sq.room()))
        driver.ring(*sqs)
        for cq in cqs:
            driver.take(cq, chance.choice([1, 2, None]))
    driver.finish(sqs, cqs)


def rings(driver):
    """Three queue pairs with rings of 5 and 4 slots, which wrap many times."""
    cqs = [driver.create_cq(number, 4) for number in (1, 2, 3)]
    load(driver, [driver.create_sq(cq.number, 5, cq) for cq in cqs], cqs)


def shared(driver):
    """Four submission queues on one completion queue of 6 slots."""
    cq = driver.create_cq(1, 6)
    load(driver, [driver.create_sq(number, 8, cq) for number in (1, 2, 3, 4)], [cq])


def order(driver):
    """Three queues with a backlog."""
    cq = driver.create_cq(1, 64)
    sqs = [driver.create_sq(number, 8, cq) for number in (1, 2, 3)]
    for _ in range(4):
        for sq in sqs:
            driver.read(sq, 7)
        driver.ring(*sqs)
        driver.finish(sqs, [cq])


def admin(driver):
    """Queues are created and deleted, and many of these commands are refused."""

    def create(opcode, number, last, dword):
        driver.admin(opcode, prp=0x200000, cdw10=last << 16 | number, cdw11=dword << 16 | 1)

    def delete(opcode, *numbers):
        for number in numbers:
            driver.admin(opcode, cdw10=number)

    for number, last in ((0, 7), (17, 7), (1, 0), (1, 7), (1, 7)):
        create(CREATE_CQ, number, last, 0)
    for cq in (2, 0, 17, 1, 1):
        create(CREATE_SQ, 1, 7, cq)
    create(CREATE_CQ, 3, 4095, 0)
    delete(DELETE_CQ, 1)
    delete(DELETE_SQ, 5, 1, 1)
    delete(DELETE_CQ, 1, 1, 0, 5)
    create(CREATE_CQ, 1, 7, 0)
    create(CREATE_SQ, 1, 7, 1)
    driver.admin(ABORT, cdw10=7 << 16 | 1)


def again(driver, cq, turns):
    """Takes what a deleted queue left, creates it again, and uses it."""
    driver.settle()
    driver.take(cq)
    sq = driver.create_sq(1, 5, cq)
    for _ in range(turns):
        driver.read(sq, 4)
        driver.ring(sq)
        driver.finish([sq], [cq])


def delfly(driver):
    """A queue is deleted while its reads are in flight, one of which is to be aborted. Then both queues are created again."""
    cq = driver.create_cq(1, 8)
    sq = driver.create_sq(1, 8, cq)
    driver.read(sq, 3)
    driver.ring(sq)
    driver.admin(ABORT, cdw10=2 << 16 | 1)
    driver.submit(driver.asq, DELETE_SQ, cdw10=1)
    assert not driver.take(cq), "the reads ended before the queue was deleted"
    driver.ring(driver.asq)
    driver.finish([driver.asq], [driver.acq])
    driver.take(cq)
    driver.admin(DELETE_CQ, cdw10=1)
    again(driver, driver.create_cq(1, 8), 1)


def delete(driver, is_first):
    """A queue is deleted by a doorbell that is written at once with the queue's own, before it or after it."""
    cq = driver.create_cq(1, 64)
    sq = driver.create_sq(1, 8, cq)
    driver.read(sq, 3)
    driver.submit(driver.asq, DELETE_SQ, cdw10=1)
    driver.ring(*[driver.asq, sq] if is_first else [sq, driver.asq])
    driver.finish([driver.asq], [driver.acq])
    again(driver, cq, 3)


def delring(driver):
    delete(driver, False)


def delbell(driver):
    delete(driver, True)


def hostile(driver):
    """An identifier twice, a tail beyond the ring, a head beyond the completions, and more commands than there is room for."""
    cqs = [driver.create_cq(number, 8) for number in (1, 2, 3, 4)]
    sqs = [driver.create_sq(cq.number, 8, cq) for cq in cqs]
    driver.read(sqs[0], 2, cid=1)
    driver.ring(sqs[0])
    driver.finish(sqs[:1], cqs)
    driver.bells("tail", (2, 9))
    driver.bells("head", (3, 3))
    driver.read(sqs[2], 3)
    driver.ring(sqs[2])
    driver.read(sqs[3], 5)
    driver.bells("tail", (4, 5), (4, 3))
    for cq in cqs:
        driver.settle()
        driver.take(cq)


RUNS = {it.__name__: it for it in (rings, shared, order, admin, delfly, delring, delbell, hostile)}


def log_of(name):
    """Does a run, and gives the lines of its log."""
    with tempfile.TemporaryDirectory() as folder:
        with Driver(folder, LATENCY if name == "delfly" else 0) as driver:
            RUNS[name](driver)
        driver.write_notes(f"{folder}/notes")
        made = subprocess.run([f"{TOP}/tools/qemulog", driver.trace, f"{folder}/notes"], capture_output=True, text=True, check=False)
        assert made.returncode == 0, made.stderr
        return made.stdout.splitlines()


def main(words):
    if len(words) != 1 or words[0] not in RUNS:
        sys.exit(__doc__)
    print("\n".join(log_of(words[0])))


if __name__ == "__main__":
    main(sys.argv[1:])
