#!/usr/bin/env -S python3 -B
# SPDX-License-Identifier: MIT
"""Sees to the commands and files that a test needs. Where CI is `true` and it runs as root, it installs the packages of
those that are missing. Where they can't be had it says that the test is left out, and its status is 1.

  tests/needs.py NAME COMMAND=PACKAGE ..    NAME is that of the test, such as tests/rust. A COMMAND that begins with / is a
                                            file
"""
import fcntl
import os
import shutil
import subprocess
import sys


def may_install():
    return os.environ.get("CI") == "true" and os.getuid() == 0


def apt_get(*words):
    """Runs apt-get after those that other tests run now, and tells whether it succeeded."""
    with open(__file__, encoding="utf-8") as lock:
        fcntl.flock(lock, fcntl.LOCK_EX)
        there = {**os.environ, "DEBIAN_FRONTEND": "noninteractive"}
        return subprocess.run(["apt-get", "-q", *words], env=there, stdout=sys.stderr, check=False).returncode == 0


def lacking(needs):
    return [it for it in needs if not (os.path.exists(it) if it.startswith("/") else shutil.which(it))]


def left_out(name, why):
    """Tells it in the form by which the gate collects these lines."""
    print(f"{name}: left out, since {why}", flush=True)


def are_there(name, needs):
    """Whether all of these commands and files are there, each of which is told with the package that has it."""
    missing = lacking(needs)
    if missing and may_install() and apt_get("update"):
        apt_get("-y", "--no-install-recommends", "install", *(needs[it] for it in missing))
        missing = lacking(needs)
    if missing:
        packages = " ".join(dict.fromkeys(needs[it] for it in missing))
        left_out(name, f"there is no {', '.join(missing)} (apt-get install {packages})")
    return not missing


def main(words):
    if len(words) < 2 or not all("=" in it for it in words[1:]):
        sys.exit(__doc__)
    sys.exit(not are_there(words[0], dict(it.split("=", 1) for it in words[1:])))


if __name__ == "__main__":
    main(sys.argv[1:])
