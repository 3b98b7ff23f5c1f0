"""The bill of materials: what a release holds and what that is linked with, as SPDX 2.3 has it in JSON."""
import hashlib
import json
from typing import Any, Iterator, Optional

from tools import addon, components, extension, sources
from tools.packages.parts import HEADER, PROGRAM, RELEASED, SHARED, STATIC, version
from tools.repository import read_bytes, read_text

# (each has the static library inside)
HOSTED = {addon.ADDON: addon.STAMP, extension.EXTENSION: extension.STAMP}
OURS = {PROGRAM: sources.PROGRAM, **{it: sources.LIBRARY for it in (SHARED, STATIC, *HOSTED)}}
STAMPS = {PROGRAM: "stamp", **HOSTED}
NONE = "NOASSERTION"
Package = dict[str, Any]
# (no clock is read, so that the same files give the same bill)
CREATED = "1980-01-01T00:00:00Z"


def name_of(*words: str) -> str:
    return "SPDXRef-" + "-".join("".join(c if c.isalnum() or c in ".-" else "-" for c in it) for it in words)


def package(reference: str, name: str, number: Optional[str], summed: str, comment: str) -> Package:
    made: Package = {
        "SPDXID": reference,
        "name": name,
        "downloadLocation": NONE,
        "filesAnalyzed": False,
        "licenseConcluded": NONE,
        "licenseDeclared": NONE,
        "copyrightText": NONE,
        "checksums": [{"algorithm": "SHA256", "checksumValue": summed}],
        "comment": comment,
    }
    return {**made, "versionInfo": number} if number else made


def own(file: str) -> Package:
    stamp = read_text(f"{RELEASED}/{STAMPS.get(file, 'library.stamp')}").split("\n")
    how = "Built" if file in HOSTED else "Proved and built"
    comment = f"{how} by {stamp[1]}, of the sources with the sum {stamp[0]}."
    return package(
        name_of("own", file), file, version(), hashlib.sha256(read_bytes(f"{RELEASED}/{file}")).hexdigest(), comment
    )


def linked(name: str, about: dict[str, Any]) -> Package:
    follows = about["follows"]
    comment = f"A proved crate of the Rattle kit, {'after the Rust crate ' + follows if follows else 'of its own'}. The sum is that of its source."
    return package(name_of("kit", name), name, follows.split()[1] if follows else None, about["sha256"], comment)


def relations(listed: dict[str, Any]) -> Iterator[dict[str, str]]:
    for file, of in OURS.items():
        yield {
            "spdxElementId": "SPDXRef-DOCUMENT",
            "relationshipType": "DESCRIBES",
            "relatedSpdxElement": name_of("own", file),
        }
        for name in listed["linked"][of]:
            yield {
                "spdxElementId": name_of("own", file),
                "relationshipType": "STATIC_LINK",
                "relatedSpdxElement": name_of("kit", name),
            }


def bill() -> dict[str, bytes]:
    """The bill's file."""
    listed = components.listed()
    summed = hashlib.sha256(b"".join(read_bytes(f"{RELEASED}/{it}") for it in (*OURS, HEADER))).hexdigest()
    document = {
        "spdxVersion": "SPDX-2.3",
        "dataLicense": "CC0-1.0",
        "SPDXID": "SPDXRef-DOCUMENT",
        "name": f"bullmyrtle-{version()}",
        "documentNamespace": f"https://bullmyrtle.example/spdx/{version()}-{summed}",
        "creationInfo": {
            "created": CREATED,
            "creators": ["Tool: bin/package"],
            "comment": f"The kit: {listed['kit']}.",
        },
        "packages": [*map(own, OURS), *(linked(name, about) for name, about in listed["crates"].items())],
        "relationships": list(relations(listed)),
    }
    return {f"bullmyrtle-{version()}.spdx.json": (json.dumps(document, indent=2) + "\n").encode()}
