"""What is in the program, as a document of SPDX 2.3."""

import hashlib
import re
import time
from pathlib import Path

from elf import libraries, newest_glibc

PLACE = "https://mldb.invalid/spdx"


def crates_of(root: Path) -> tuple[list[str], list[str]]:
    """The crates of the repository that the program stands on, and those of the kit that they name."""
    uses = {}
    for line in (root / "crates.txt").read_text(encoding="utf-8").split("\n"):
        found = re.fullmatch(r"([a-z0-9_]+)(?::(.*))?", line)
        if found:
            uses[found[1]] = (found[2] or "").split()
    seen, left = set(), ["mldb"]
    while left:
        name = left.pop()
        if name not in seen:
            seen.add(name)
            left += uses.get(name, [])
    return sorted(seen & set(uses)), sorted(seen - set(uses))


def kit_crates(kit: Path, named: list[str]) -> dict[str, str]:
    """The crates of the kit that the program has, also those below the named ones, with the sum of what is linked."""
    seen: dict[str, str] = {}
    left = list(named)
    while left:
        name = left.pop()
        folder = kit / "rlibs" / f"{name}.rlib"
        if name not in seen and (folder / "format").is_file():
            linked = folder / "toolchain/checked.a"
            seen[name] = sum_of(linked if linked.is_file() else folder / "format")
            lines = (folder / "format").read_text(encoding="utf-8", errors="replace").split("\n")
            left += [line.removeprefix("dep ") for line in lines if line.startswith("dep ")]
    return dict(sorted(seen.items()))


def kit_c(kit: Path) -> dict[str, str]:
    """What the kit has in C and puts into each program."""
    return {path.name: sum_of(path) for path in sorted((kit / "c").glob("lib*.a"))}


def sum_of(path: Path) -> str:
    """The sum of a file, which may be large."""
    with path.open("rb") as file:
        return hashlib.file_digest(file, "sha256").hexdigest()


def part(name: str, version: str, sum_: str = "", licence: str = "NOASSERTION") -> dict:
    """A package of the document."""
    told = {"SPDXID": f"SPDXRef-{re.sub('[^A-Za-z0-9.-]', '-', name)}", "name": name, "versionInfo": version}
    told |= {"downloadLocation": "NOASSERTION", "filesAnalyzed": False, "copyrightText": "NOASSERTION"}
    told |= {"licenseConcluded": licence, "licenseDeclared": licence}
    return told | ({"checksums": [{"algorithm": "SHA256", "checksumValue": sum_}]} if sum_ else {})


def relation(one: dict, how: str, other: str) -> dict:
    """How two things of the document stand to each other."""
    return {"spdxElementId": one["SPDXID"], "relationshipType": how, "relatedSpdxElement": other}


def sbom(root: Path, release) -> dict:
    """The document."""
    program = part("mldb", release.version, hashlib.sha256(release.program).hexdigest())
    crates, newest = kit_crates(release.place, crates_of(root)[1]), newest_glibc(release.program)
    own = {**crates, **kit_c(release.place)}
    parts = [part(f"kit-{name}", release.kit, sum_) for name, sum_ in own.items()]
    parts += [part(name, f"at least GLIBC {newest}") for name in sorted(libraries(release.program))]
    made = time.strftime("%Y-%m-%dT%H:%M:%SZ", time.gmtime(release.time))
    document = {"SPDXID": "SPDXRef-DOCUMENT", "spdxVersion": "SPDX-2.3", "dataLicense": "CC0-1.0"}
    told = [relation(document, "DESCRIBES", program["SPDXID"])]
    told += [relation(program, kind(one), one["SPDXID"]) for one in parts]
    return document | {
        "name": f"mldb-{release.version}",
        "documentNamespace": f"{PLACE}/mldb-{release.version}-{release.commit}",
        "creationInfo": {"created": made, "creators": ["Tool: bin/package"]},
        "packages": [program, *parts],
        "relationships": told,
    }


def kind(one: dict) -> str:
    """How the program has a part: inside, or loaded when it starts."""
    return "CONTAINS" if one["name"].startswith("kit-") else "DYNAMIC_LINK"
