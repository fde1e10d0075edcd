# SPDX-License-Identifier: MIT
"""Makes of an LLVM module for x86-64 one for another processor, for `tools/build --unproved --target TARGET`."""
import os
import re
import subprocess

# The processors, and clang's words for each.
TARGETS = {"aarch64": ["-march=armv8-a"], "riscv64": ["-march=rv64gc", "-mabi=lp64d"]}


def words_for(target, words):
    """These words to clang, which are for x86-64, for the target."""
    kept = [it for it in words if not it.startswith(("--target=", "-march="))]
    return [*kept, f"--target={target}-unknown-linux-gnu", *TARGETS[target]]


def text_for(target, text, clang):
    """The text of a module for the target, whose layout of data clang tells. An export returns 32 bits with their sign, as
    RISC-V's calling convention has it, and AArch64's allows."""
    words = words_for(target, [clang, "-S", "-emit-llvm", "-x", "c", os.devnull, "-o", "-"])
    empty = subprocess.run(words, stdout=subprocess.PIPE, text=True, check=True).stdout
    for kind, told in re.findall(r"(?m)^(target \w+ = )(.*)$", empty):
        text = re.sub(f"(?m)^{kind}.*$", kind + told, text)
    text = re.sub(r' "target-cpu"="[^"]*"', "", text)
    return re.sub("(?m)^define noundef i32 @", "define noundef signext i32 @", text)
