"""Archives of which the same content has the same bytes: names in order, one time, one owner, two modes."""

import base64
import gzip
import hashlib
import io
import tarfile
import time
import tomllib
import zipfile
from pathlib import Path
from typing import NamedTuple


class Member(NamedTuple):
    """A file, and whether it can be called."""

    data: bytes
    is_command: bool = False


def members_of(folder: Path) -> dict[str, Member]:
    """The files below a folder, by their paths in it."""
    files = sorted(path for path in folder.rglob("*") if path.is_file() and "__pycache__" not in path.parts)
    return {
        str(path.relative_to(folder)): Member(path.read_bytes(), bool(path.stat().st_mode & 0o100)) for path in files
    }


def entry(name: str, when: int, mode: int) -> tarfile.TarInfo:
    """The head of a file in a tar."""
    told = tarfile.TarInfo(name)
    told.mtime, told.mode, told.uname, told.gname = when, mode, "root", "root"
    return told


def tar_gz(files: dict[str, Member], when: int, start: str = "") -> bytes:
    """Files, with the folders that they are in."""
    raw = io.BytesIO()
    folders = {str(parent) for name in files for parent in Path(name).parents if str(parent) != "."}
    with tarfile.open(fileobj=raw, mode="w", format=tarfile.USTAR_FORMAT) as tar:
        for name in sorted(folders | set(files)):
            if name in folders:
                told = entry(f"{start}{name}", when, 0o755)
                told.type = tarfile.DIRTYPE
                tar.addfile(told)
            else:
                told = entry(f"{start}{name}", when, 0o755 if files[name].is_command else 0o644)
                told.size = len(files[name].data)
                tar.addfile(told, io.BytesIO(files[name].data))
    packed = io.BytesIO()
    with gzip.GzipFile(filename="", mode="wb", fileobj=packed, mtime=when, compresslevel=6) as out:
        out.write(raw.getvalue())
    return packed.getvalue()


def ar(parts: dict[str, bytes], when: int) -> bytes:
    """Files one after the other, as Debian's packages have them."""
    told = b"!<arch>\n"
    for name, data in parts.items():
        told += f"{name:<16}{when:<12}{0:<6}{0:<6}{'100644':<8}{len(data):<10}`\n".encode() + data + b"\n" * (
            len(data) % 2
        )
    return told


def deb(control: dict[str, str], scripts: dict[str, bytes], files: dict[str, Member], when: int) -> bytes:
    """A package of Debian."""
    size = sum(len(member.data) for member in files.values()) // 1024 + 1
    fields = "".join(f"{name}: {text}\n" for name, text in {**control, "Installed-Size": str(size)}.items())
    sums = "".join(f"{hashlib.md5(member.data).hexdigest()}  {name}\n" for name, member in sorted(files.items()))
    head = {"control": Member(fields.encode()), "md5sums": Member(sums.encode())}
    head |= {name: Member(data, True) for name, data in scripts.items()}
    parts = {
        "debian-binary": b"2.0\n", "control.tar.gz": tar_gz(head, when, "./"), "data.tar.gz": tar_gz(files, when, "./")
    }
    return ar(parts, when)


def wheel(folder: Path, when: int) -> dict[str, bytes]:
    """The wheel of a package of Python alone, by its name."""
    project = tomllib.loads((folder / "pyproject.toml").read_text(encoding="utf-8"))["project"]
    name, version = project["name"], project["version"]
    info = f"{name}-{version}.dist-info"
    lines = [
        "Metadata-Version: 2.1", f"Name: {name}", f"Version: {version}", f"Summary: {project.get('description', name)}"
    ]
    lines += [f"Requires-Python: {project['requires-python']}"] if "requires-python" in project else []
    lines += [f"Classifier: {one}" for one in project.get("classifiers", [])]
    found = {
        f"{name}/{path}": member.data for path, member in members_of(folder / name).items() if not path.endswith(".pyc")
    }
    found[f"{info}/METADATA"] = "".join(f"{line}\n" for line in lines).encode()
    found[f"{info}/WHEEL"] = b"Wheel-Version: 1.0\nGenerator: mldb\nRoot-Is-Purelib: true\nTag: py3-none-any\n"
    sums = {
        path: base64.urlsafe_b64encode(hashlib.sha256(data).digest()).rstrip(b"=").decode()
        for path, data in found.items()
    }
    record = "".join(f"{path},sha256={sums[path]},{len(found[path])}\n" for path in found) + f"{info}/RECORD,,\n"
    packed = io.BytesIO()
    with zipfile.ZipFile(packed, "w", zipfile.ZIP_DEFLATED) as out:
        for path, data in {**found, f"{info}/RECORD": record.encode()}.items():
            told = zipfile.ZipInfo(path, time.gmtime(when)[:6])
            told.external_attr = 0o644 << 16
            out.writestr(told, data, zipfile.ZIP_DEFLATED)
    return {f"{name}-{version}-py3-none-any.whl": packed.getvalue()}
