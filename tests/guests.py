# SPDX-License-Identifier: MIT
"""What tests/guest and tests/qemu share: a guest that is put together, booted by capi/examples/boot, and whose lines are
taken over as tests."""
import os
import re
import shutil
import signal
import subprocess
import sys

from cases import FOLDER, TESTS, TOP, Program, ProgramCase, leave_out, need
from needs import apt_get, may_install

# A command, and the package that has it.
NEEDED = {"qemu-system-x86_64": "qemu-system-x86", "fio": "fio", "cpio": "cpio", "busybox": "busybox-static"}
KERNEL, BOOT = f"{TOP}/capi/out/kernel/vmlinuz", f"{TOP}/capi/examples/boot"
FLAGS = ["-std=c11", "-O2", "-Wall", "-Wextra", "-Werror"]


def call(*words, **how):
    assert subprocess.run(words, check=False, **how).returncode == 0, f"{words[0]} failed"


def install():
    """Sees to what is needed, or leaves the tests out."""
    need(NEEDED)
    if os.path.exists(KERNEL):
        return
    if not may_install():
        leave_out("there is no kernel (make -C capi guest takes it)")
    if not apt_get("update") or subprocess.run([BOOT, "--kernel"], stdout=sys.stderr, check=False).returncode:
        leave_out("its kernel can't be taken")


def make_guest(sources):
    """Puts together the files of the guest: the first process, and fio with its libraries. Gives their folder."""
    guest, fio = f"{FOLDER}/guest", shutil.which("fio")
    said = subprocess.run(["ldd", fio], capture_output=True, text=True, check=True).stdout
    for name in ("dev", "proc", "sys", "tmp"):
        os.makedirs(f"{guest}/{name}")
    for at, to in [(fio, "/usr/bin/fio"), *((it, it) for it in re.findall(r"/\S+", said))]:
        os.makedirs(os.path.dirname(guest + to), exist_ok=True)
        shutil.copy(at, guest + to)
    call("gcc", *FLAGS, "-static", "-o", f"{guest}/init", *(f"{TESTS}/c/guest{it}.c" for it in sources))
    return guest


def boot(device, words, longest, **options):
    """Boots the guest, and gives the lines of its console, and the status of QEMU."""
    for folder in (f"{FOLDER}/traces", f"{FOLDER}/logs"):
        shutil.rmtree(folder, ignore_errors=True)
        os.makedirs(folder)
    how = {"stdin": subprocess.DEVNULL, "stdout": subprocess.PIPE, "stderr": subprocess.STDOUT, "start_new_session": True}
    it = subprocess.Popen([BOOT, device, f"{FOLDER}/guest", *words], env={**os.environ, **options}, **how)
    try:
        said = it.communicate(timeout=longest)[0]
    except subprocess.TimeoutExpired:
        os.killpg(it.pid, signal.SIGKILL)
        said = it.communicate()[0]
    return said.decode(errors="replace").replace("\r", "").splitlines(), it.returncode


def boot_twice(*words, **options):
    """Boots the guest, and once more if a test fails or it doesn't come to its end."""
    lines, status = boot(*words, **options)
    if status != 0 or count_of(lines) is None or any(it.startswith("bad ") for it in lines):
        print(f"a test failed, or the guest didn't come to its end: it is booted once more: {lines[-20:]}", file=sys.stderr)
        lines, status = boot(*words, **options)
    return lines, status


def count_of(lines):
    """The number of tests that the guest says to have made, or none."""
    ends = [re.fullmatch(r"end of (\d+)", it) for it in lines]
    return next((int(it[1]) for it in ends if it), None)


def take_over(case, lines):
    """Counts the tests of these lines, and tells how many there are."""
    found = [it for it in (re.fullmatch(r"(row|bad) ([^:]*): (.*)", line) for line in lines) if it]
    for _, name, text in (it.groups() for it in found if it[1] == "row"):
        case.counts(1)
        print(f"{name}: {text}", flush=True)
    for _, name, text in (it.groups() for it in found if it[1] == "bad"):
        with case.subTest(name):
            case.fail(text)
    for line in lines:
        if line.startswith("kernel: "):
            print(line, file=sys.stderr)
    return len(found)


class GuestCase(ProgramCase):
    """What a guest said on its console, how QEMU ended, the traces of the device's picks, and its logs."""

    program, lines, status = Program([]), [], 0

    def take_over_all(self):
        made = take_over(self, self.lines)
        self.assertEqual(self.status, 0, "QEMU's status")
        self.assertEqual(made, count_of(self.lines), f"the console said: {self.lines[-20:]}")
        self.tells(f"{made} tests")

    def are_lawful(self):
        """Each trace of the device's picks is lawful, one from each enabling of the controller on."""
        picks, traces = 0, sorted(os.listdir(f"{FOLDER}/traces"), key=int)
        for it in traces:
            said = self.program("check", f"{FOLDER}/traces/{it}")
            found = re.fullmatch(rb"lawful: (\d+) picks?\n", said.output)
            assert found and said.status == 0, f"trace {it}: {said}"
            picks += int(found[1])
        assert picks, "there are no traces"
        self.tells(f"{picks} in {len(traces)} traces")

    def are_audited(self):
        """By no log the device breaks a rule. A test of the guest's does: it writes doorbells that it may not."""
        lines, logs = 0, sorted(os.listdir(f"{FOLDER}/logs"), key=int)
        for it in logs:
            said = self.program("audit", f"{FOLDER}/logs/{it}")
            found = re.match(rb"lawful: (\d+) lines\n", said.output)
            assert found and said.status in (0, 4), f"log {it}: {said}"
            lines += int(found[1])
        assert lines, "there are no logs"
        self.tells(f"{lines} lines of {len(logs)} logs")
