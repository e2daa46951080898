"""The parts of the toolchain that are linked into the program, their licences, and the list of all parts (SPDX)."""

import json
import re
import shutil
import subprocess
from dataclasses import dataclass
from datetime import UTC, datetime
from pathlib import Path

from basin_files.program import Unable

from .gate import Gate
from .needs import Needs

PROGRAM_CRATE = "basin"
FROM_RUST = re.compile(r"(?:after|port of|API of|From) the Rust crates? `[\w-]+`(?: ([0-9][0-9.]*[0-9]))?")


@dataclass(frozen=True)
class Part:
    """A crate of the toolchain: its name, the version of the Rust crate after which it is made, its licences' texts."""

    name: str
    after: str  # empty where its page tells none
    licences: dict[str, bytes]


def toolchain() -> tuple[str, Path]:
    """The toolchain's own line on itself, and its folder."""
    if not shutil.which("rt"):
        raise Unable("the toolchain isn't there, whose licences are packed: its command is rt")
    said = [subprocess.run(["rt", word], capture_output=True, text=True, check=True).stdout for word in ("version", "doc")]
    return said[0].strip(), Path(said[1].splitlines()[0]).parent


def named_below(crates: str) -> set[str]:
    """The toolchain's crates that the program's crate and those below it name in crates.txt."""
    lines = [line.partition(":") for line in crates.splitlines() if line and not line.startswith("#")]
    uses = {name: below.split() for name, _, below in lines}
    waiting, seen = [PROGRAM_CRATE], set()
    while waiting:
        name = waiting.pop()
        if name not in seen:
            seen.add(name)
            waiting += uses.get(name, [])
    return seen - set(uses)


def names_in(program: Path) -> set[str]:
    """The names of crates that the program's symbols begin with: none where these were taken out."""
    done = subprocess.run(["nm", str(program)], capture_output=True, text=True, check=False)
    return set(re.findall(r"^[0-9a-f ]* \w [<&*]*([a-z_0-9]+)::", done.stdout, re.MULTILINE))


def parts_of(program: Path, crates: str, kit: Path) -> list[Part]:
    """The linked crates of the toolchain."""
    folders = {name: kit / "rattle" / name for name in named_below(crates) | names_in(program)}
    return [part_of(name, folder) for name, folder in sorted(folders.items()) if folder.is_dir()]


def part_of(name: str, folder: Path) -> Part:
    """One of them, as its folder tells."""
    page = folder / "README.md"
    found = FROM_RUST.search(page.read_text()) if page.is_file() else None
    licences = {path.name: path.read_bytes() for path in sorted(folder.glob("LICENSE*"))}
    return Part(name, (found[1] or "") if found else "", licences)


# ---- the list of parts


def package(name: str, version: str, comment: str, **more: object) -> dict[str, object]:
    """A package of the list. What isn't known of it is not asserted."""
    unknown = {key: "NOASSERTION" for key in ("downloadLocation", "licenseConcluded", "licenseDeclared", "copyrightText")}
    own = {"SPDXID": f"SPDXRef-{name.replace('_', '-')}", "name": name, "versionInfo": version, "comment": comment}
    return {**own, "filesAnalyzed": False, **unknown, **more}


def of_part(part: Part, gate: Gate) -> dict[str, object]:
    """That of a crate of the toolchain."""
    after = f", after the Rust crate of that name, {part.after}" if part.after else ""
    licences = f"; licences/{part.name} has its licences" if part.licences else ""
    return package(part.name, gate.toolchain.split()[0], f"a crate of the toolchain{after}{licences}")


def bill(version: str, gate: Gate, needs: Needs, parts: list[Part], epoch: int) -> bytes:
    """The list of all parts of the program, in SPDX 2.3."""
    sums = [{"algorithm": "SHA256", "checksumValue": gate.checksum}]
    own = package("basin", version, f"commit {gate.commit}, built by {gate.toolchain}", checksums=sums)
    libraries = [package(name, f"glibc {needs.glibc_text} or newer", "a shared library of the system") for name in needs.libraries]
    crates = [of_part(part, gate) for part in parts]
    links = [("STATIC_LINK", it) for it in crates] + [("DYNAMIC_LINK", it) for it in libraries]
    document = {
        "spdxVersion": "SPDX-2.3", "dataLicense": "CC0-1.0", "SPDXID": "SPDXRef-DOCUMENT", "name": f"basin-{version}",
        "documentNamespace": f"https://basin.invalid/spdx/{version}/{gate.checksum}",
        "creationInfo": {
            "created": datetime.fromtimestamp(epoch, UTC).strftime("%Y-%m-%dT%H:%M:%SZ"),
            "creators": [f"Tool: basin-release-{version}"],
        },
        "documentDescribes": [own["SPDXID"]],
        "packages": [own, *crates, *libraries],
        "relationships": [related("SPDXRef-DOCUMENT", "DESCRIBES", own)]
        + [related(it["SPDXID"], sort, own) if sort == "STATIC_LINK" else related(own["SPDXID"], sort, it) for sort, it in links],
    }
    return (json.dumps(document, indent=1) + "\n").encode()


def related(one: object, sort: str, other: dict[str, object]) -> dict[str, object]:
    """How two parts are related: a crate is linked statically into the program, the program dynamically with a library."""
    return {"spdxElementId": one, "relationshipType": sort, "relatedSpdxElement": other["SPDXID"]}
