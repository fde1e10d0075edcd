# SPDX-License-Identifier: MIT
"""What pages are made from: files of this repository, and what the program prints."""
import os
import re
import subprocess
import sys

TOP = os.path.dirname(os.path.dirname(os.path.dirname(os.path.realpath(__file__))))


class Sources:
    """With a word, that program. Otherwise it is built when a page first asks for what it prints."""

    def __init__(self, words):
        self.program = os.path.abspath(words[0]) if words else None

    def built(self):
        is_unproved = bool(os.environ.get("UNPROVED"))
        if subprocess.run([f"{TOP}/tools/build", *["--unproved"] * is_unproved, "nvmearb"]).returncode:
            sys.exit("docs: the program did not build")
        return f"{TOP}/crates/nvmearb/out/{'unproved/' * is_unproved}nvmearb"

    def printed(self, line):
        """What the program prints on these words, as the proved one does."""
        self.program = self.program or self.built()
        left = subprocess.run([self.program, *line.split()], stdout=subprocess.PIPE, check=True, text=True)
        return re.sub(r"(\bnvmearb \d+\.\d+\.\d+)-unproved\b", r"\1", left.stdout)

    @staticmethod
    def text(path):
        with open(f"{TOP}/{path}", encoding="utf-8") as it:
            return it.read()

    @staticmethod
    def lines(path):
        return Sources.text(path).splitlines()
