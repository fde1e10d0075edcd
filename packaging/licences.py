#!/usr/bin/env -S python3 -B
# SPDX-License-Identifier: MIT
"""Whose code is in the program and in the C library, and under which licence: the one list that tarball, Debian package
and wheel are packed with.

  packaging/licences.py third-party     prints the page THIRD-PARTY
  packaging/licences.py copyright       prints the copyright file of a Debian package
  packaging/licences.py own             prints the sentence on the toolchain's own crates

The list is the closure of crates.txt over the crates of the toolchain, of which `rt doc` tells the place. A ported crate
without a licence is refused, and so is a licence that LICENCES doesn't name. packaging/sbom.py has an SPDX document of it.
"""
import functools
import os
import re
import subprocess
import sys

TOP = os.path.dirname(os.path.dirname(os.path.realpath(__file__)))
# What is packed: the crate that it is built of, and its file in a tarball.
PRODUCTS = {"nvmearb": "bin/nvmearb", "nvme_capi": "lib/libnvmearb.a"}
# The toolchain's own crates, in which no licence of theirs was found. All others are ported, and need one.
OWN = {*"atomic_blocks atomic_table core io json libc os std std_alloc std_collections std_heap std_io".split()}
# Licences by their SPDX names, with words that their texts have.
LICENCES = {
    "Apache-2.0": "Apache License Version 2.0",
    "MIT": "Permission is hereby granted, free of charge, to any person obtaining a copy",
    "Unicode-3.0": "UNICODE LICENSE V3",
}
# The names of files that are licences, and what the comment at the head of a source tells of one.
IS_LICENCE = re.compile(r"(?i)(un)?licen[cs]e|copying|copyright|notice")
IS_NOTICE = re.compile(r"(?i)licen[cs]e|copyright")
# Where a source names this licence, its text is that of the crate `unicode`.
UNICODE = "Unicode License v3"
COPYRIGHT = re.compile(r"(?im)^\s*(copyright +(?:\(c\)|©|\d).*?)\s*$")
RULE = "=" * 80


class Missing(Exception):
    """Why it can't be packed."""


def read(file):
    with open(file, encoding="utf-8") as it:
        return it.read()


def folded(text):
    return " ".join(text.split())


def spdx_name(text):
    """The licence that this is a text of, or "" where LICENCES doesn't name it."""
    return next((name for name, words in LICENCES.items() if words in folded(text)), "")


class Crate:
    """A crate of the toolchain: the Rust crate that it follows, the texts of its licences, and the notices at the heads of
    its sources, each by the name of the file."""

    def __init__(self, kit, name, products):
        self.name, self.products, self.folder = name, products, f"{kit}/rattle/{name}"
        self.is_own, self.upstream, self.version = name in OWN, name, ""
        names = sorted(os.listdir(self.folder)) if os.path.isdir(self.folder) else []
        self.texts = {it: read(f"{self.folder}/{it}") for it in names if IS_LICENCE.match(it)}
        self.notices = {it: head for it, head in self.heads() if IS_NOTICE.search(head)}
        if any(UNICODE in folded(it) for it in self.notices.values()):
            self.texts["LICENSE-UNICODE"] = read(f"{kit}/rattle/unicode/LICENSE-UNICODE")
        if not self.is_own:
            self.note_upstream()
            self.check()

    def note_upstream(self):
        """The Rust crate that the README names with its version, such as `clap_builder` 4.6.7."""
        pattern = rf"\b({self.name.replace('_', '[-_]')}\w*)`? (\d+\.\d+\.\d+)"
        found = re.search(pattern, read(f"{self.folder}/README.md"))
        self.upstream, self.version = found.groups() if found else (self.name, "")

    def heads(self):
        """The comment at the head of each source."""
        for at, _, names in sorted(os.walk(f"{self.folder}/src")):
            for name in sorted(names):
                head = re.match(r"(?://.*\n)*", read(f"{at}/{name}"))[0]
                yield os.path.relpath(f"{at}/{name}", self.folder), re.sub(r"(?m)^// ?", "", head)

    def check(self):
        if not self.texts:
            raise Missing(f"{self.folder} has no licence")
        for file, text in self.texts.items():
            if not spdx_name(text):
                raise Missing(f"{self.folder}/{file} is none of these licences: {', '.join(LICENCES)}")

    def expression(self):
        """The SPDX expression of its texts. LICENSE-APACHE and LICENSE-MIT are a choice, and each other text adds to it."""
        if self.is_own:
            return "NOASSERTION"
        choice = sorted({"LICENSE-APACHE", "LICENSE-MIT"} & {*self.texts})
        others = sorted({spdx_name(text) for it, text in self.texts.items() if it not in choice})
        chosen = " OR ".join(spdx_name(self.texts[it]) for it in choice)
        return " AND ".join(filter(None, [f"({chosen})" if choice[1:] and others else chosen, *others]))

    def copyrights(self):
        """The lines in which its texts tell who wrote it."""
        return [*dict.fromkeys(it for text in self.texts.values() for it in COPYRIGHT.findall(text))]

    def origin(self):
        """What it is, in a few words."""
        return "the toolchain's own" if self.is_own else f"after the Rust crate {self.upstream} {self.version}".rstrip()

    def places(self):
        """The files that may have code of it."""
        return " and ".join(PRODUCTS[it] for it in self.products)


def kit_folder():
    try:
        told = subprocess.run(["rt", "doc"], capture_output=True, text=True, check=True).stdout
    except (OSError, subprocess.CalledProcessError):
        raise Missing("rt isn't in the path: the licences lie in the toolchain") from None
    return os.path.dirname(told.strip())


def dependencies(kit, name):
    """The crates that a crate of the toolchain uses."""
    file = f"{kit}/rlibs/{name}.rlib/format"
    if not os.path.exists(file):
        raise Missing(f"there is no {file}, which crates.txt asks for")
    return re.findall(r"(?m)^dep (\w+)$", read(file))


def used_of_kit(kit, product):
    """The crates of the toolchain that are below a crate of crates.txt."""
    lines = [it.partition("#")[0].partition(":") for it in read(f"{TOP}/crates.txt").splitlines()]
    uses = {head.split()[0]: names.split() for head, _, names in lines if head.strip()}
    found = [product, "core", "std"]
    for name in found:
        below = uses[name] if name in uses else dependencies(kit, name)
        found += [it for it in below if it not in found]
    return {it for it in found if it not in uses}


@functools.lru_cache(maxsize=None)
def crates():
    """The crates of the toolchain whose code may be in the program or in the library, by name."""
    kit = kit_folder()
    used = {it: used_of_kit(kit, it) for it in PRODUCTS}
    names = sorted({name for it in used.values() for name in it})
    return [Crate(kit, name, [it for it in PRODUCTS if name in used[it]]) for name in names]


def own():
    """The sentence on the toolchain's own crates."""
    return f"No licence was found for the toolchain's own crates: {', '.join(it.name for it in crates() if it.is_own)}."


def section(crate, seen):
    """What THIRD-PARTY has of a crate. A text that stands above already is named."""
    yield f"{RULE}\n{crate.name}, {crate.origin()}\nIn: {crate.places()}\nSPDX: {crate.expression()}\n{RULE}\n"
    for file, text in [*crate.notices.items(), *crate.texts.items()]:
        here = f"{file} of {crate.name}"
        above = seen.setdefault(folded(text), here)
        yield f"{file}:\n\n{text.rstrip()}\n" if above == here else f"{file}: as {above}, above.\n"
    if crate.is_own:
        yield "No licence of this crate was found in the toolchain.\n"


def third_party():
    """The page THIRD-PARTY."""
    seen = {}
    yield "The program and the C library may have code of these crates of the Rattle toolchain, most of them ports of Rust crates."
    yield f"{own()}\n"
    for it in crates():
        yield from section(it, seen)


def indented(text):
    return "".join(f" {it.rstrip() or '.'}\n" for it in text.strip().splitlines())


def stanza(crate):
    """A crate's stanza of Debian's copyright file. Its files are those of the toolchain."""
    holders = [re.sub(r"(?i)^copyright *(\(c\)|©)? *", "", it) for it in crate.copyrights()]
    if crate.is_own or not holders:
        holders.append(f"the authors of {'the toolchain' if crate.is_own else f'the Rust crate {crate.upstream}'}")
    licence = crate.expression().replace("MIT", "Expat").replace(" OR ", " or ").replace(" AND ", " and ")
    if crate.is_own:
        licence = "unknown\n No licence was found. THIRD-PARTY has the notices of others in its sources."
    yield f"Files: rattle/{crate.name}/*"
    yield "Copyright: " + "\n           ".join(holders)
    yield f"License: {licence}"
    yield f"Comment: {crate.origin()}, compiled into {crate.places()}\n"


def copyright_file():
    """Debian's copyright file."""
    holder, terms = re.search(r"(?s)Copyright \(c\) (.*?)\n\n(.*)", read(f"{TOP}/LICENSE")).groups()
    yield "Format: https://www.debian.org/doc/packaging-manuals/copyright-format/1.0/\nUpstream-Name: nvmearb\n"
    yield f"Files: *\nCopyright: {holder}\nLicense: Expat\n"
    for it in crates():
        yield from stanza(it)
    yield f"License: Expat\n{indented(terms)}"
    yield "License: Apache-2.0\n The text is in /usr/share/common-licenses/Apache-2.0."


def main(words):
    pages = {"third-party": third_party, "copyright": copyright_file, "own": lambda: [own()]}
    if len(words) != 1 or words[0] not in pages:
        sys.exit(__doc__)
    try:
        sys.stdout.buffer.write("".join(f"{it}\n" for it in pages[words[0]]()).encode())
    except Missing as why:
        sys.exit(f"packaging/licences.py: {why}")


if __name__ == "__main__":
    main(sys.argv[1:])
