#!/usr/bin/env -S python3 -B
# SPDX-License-Identifier: MIT
"""Prints an SPDX 2.3 document: each binary of a tree with its SHA-256, and the crates of the toolchain in it.

  packaging/sbom.py VERSION TREE     TREE is what is packed, and SOURCE_DATE_EPOCH the time that the document tells

The crates are those of packaging/licences.py. One tree and one time give one document.
"""
import hashlib
import json
import os
import re
import sys
import time
import uuid

import licences

# How an ELF file and an archive begin.
BINARY = (b"\x7fELF", b"!<arch>\n")
SIMULATION = "libnvmearb_sim"


def binaries(tree):
    """The binaries of a tree, by their names in it, with their bytes."""
    names = (os.path.relpath(f"{at}/{it}", tree) for at, _, found in os.walk(tree) for it in found)
    for name in sorted(it for it in names if not os.path.islink(f"{tree}/{it}")):
        with open(f"{tree}/{name}", "rb") as it:
            data = it.read()
        if data.startswith(BINARY):
            yield name, data


def identifier(name):
    return f"SPDXRef-{re.sub('[^A-Za-z0-9.]', '-', name)}"


def package(name, version, **fields):
    """What a package of a document has to have."""
    unknown = dict.fromkeys(["downloadLocation", "licenseConcluded", "licenseDeclared", "copyrightText"], "NOASSERTION")
    told = {"versionInfo": version} if version else {}
    return {"SPDXID": identifier(name), "name": name, **told, **unknown, "filesAnalyzed": False, **fields}


def binary(name, data, version):
    """The package of a binary. What is compiled into it is under licences of its own."""
    return package(
        name, version, packageFileName=name, licenseDeclared="MIT",
        copyrightText=licences.COPYRIGHT.search(licences.read(f"{licences.TOP}/LICENSE"))[1],
        checksums=[{"algorithm": "SHA256", "checksumValue": hashlib.sha256(data).hexdigest()}],
    )


def compiled_in(crate):
    """The package of a crate of the toolchain."""
    notices = "; ".join(map(licences.folded, crate.notices.values()))
    fields = {"licenseComments": f"Notices in its sources: {notices}"} if notices else {}
    terms = dict.fromkeys(["licenseConcluded", "licenseDeclared"], crate.expression())
    holders = "\n".join(crate.copyrights()) or "NOASSERTION"
    return package(crate.name, crate.version, comment=crate.origin(), copyrightText=holders, **terms, **fields)


def related(one, how, other):
    return {"spdxElementId": one, "relationshipType": how, "relatedSpdxElement": other}


def crates_of(name):
    """The crates that may be in a binary. The simulation is linked to the library, and has none."""
    product = "nvme_capi" if "libnvmearb" in name else "nvmearb"
    return [] if SIMULATION in name else [it for it in licences.crates() if product in it.products]


def relations(name):
    """What a binary is linked of."""
    if SIMULATION in name:
        yield related(identifier(name), "DEPENDS_ON", identifier(name.replace(SIMULATION, "libnvmearb")))
    for crate in crates_of(name):
        yield related(identifier(name), "STATIC_LINK", identifier(crate.name))


def document(version, tree):
    found = dict(binaries(tree))
    crates = {crate.name: crate for name in found for crate in crates_of(name)}
    packages = [*(binary(name, data, version) for name, data in found.items()), *(compiled_in(crates[it]) for it in sorted(crates))]
    links = [related("SPDXRef-DOCUMENT", "DESCRIBES", identifier(it)) for it in found]
    links += [it for name in found for it in relations(name)]
    told = time.strftime("%Y-%m-%dT%H:%M:%SZ", time.gmtime(int(os.environ.get("SOURCE_DATE_EPOCH") or time.time())))
    name = f"nvmearb-{version}"
    named = uuid.uuid5(uuid.NAMESPACE_URL, json.dumps([packages, links, told]))
    head = {
        "spdxVersion": "SPDX-2.3", "dataLicense": "CC0-1.0", "SPDXID": "SPDXRef-DOCUMENT", "name": name,
        "documentNamespace": f"https://spdx.org/spdxdocs/{name}-{named}",
        "creationInfo": {"created": told, "creators": ["Tool: nvmearb-packaging-sbom"]}, "comment": licences.own(),
    }
    return json.dumps({**head, "packages": packages, "relationships": links}, indent=1, ensure_ascii=False) + "\n"


def main(words):
    if len(words) != 2:
        sys.exit(__doc__)
    try:
        sys.stdout.buffer.write(document(*words).encode())
    except licences.Missing as why:
        sys.exit(f"packaging/sbom.py: {why}")


if __name__ == "__main__":
    main(sys.argv[1:])
