"""Builds the package for pip with Python alone, so that `pip install ./python` asks no index for a tool (PEP 517)."""

import base64
import hashlib
import io
import os
import tarfile
import tomllib
import zipfile

ROOT = os.path.dirname(os.path.dirname(os.path.abspath(__file__)))
WHEEL = "Wheel-Version: 1.0\nGenerator: mldb\nRoot-Is-Purelib: true\nTag: py3-none-any\n"
MADE = (2026, 1, 1, 0, 0, 0)


def _project() -> dict:
    with open(os.path.join(ROOT, "pyproject.toml"), "rb") as file:
        return tomllib.load(file)["project"]


def _name() -> str:
    return "{name}-{version}".format(**_project())


def _metadata() -> str:
    one = _project()
    lines = [("Metadata-Version", "2.1"), ("Name", one["name"]), ("Version", one["version"]),
             ("Summary", one["description"])]
    lines += [("Requires-Python", one["requires-python"]), *(("Classifier", word) for word in one["classifiers"])]
    return "".join(f"{name}: {value}\n" for name, value in lines)


def _files() -> dict[str, bytes]:
    """The files of the package, by their paths in it."""
    found = {}
    for name in sorted(os.listdir(os.path.join(ROOT, "mldb"))):
        if name.endswith((".py", ".typed")):
            with open(os.path.join(ROOT, "mldb", name), "rb") as file:
                found[f"mldb/{name}"] = file.read()
    return found


def _record(files: dict[str, bytes], path: str) -> str:
    """The list of files, each with its sum."""
    lines = []
    for name, data in files.items():
        told = base64.urlsafe_b64encode(hashlib.sha256(data).digest()).rstrip(b"=").decode()
        lines.append(f"{name},sha256={told},{len(data)}\n")
    return "".join(lines) + f"{path},,\n"


def build_wheel(wheel_directory, config_settings=None, metadata_directory=None):
    """A wheel; its name."""
    told, name = f"{_name()}.dist-info", f"{_name()}-py3-none-any.whl"
    files = {**_files(), f"{told}/METADATA": _metadata().encode(), f"{told}/WHEEL": WHEEL.encode()}
    files[f"{told}/RECORD"] = _record(files, f"{told}/RECORD").encode()
    with zipfile.ZipFile(os.path.join(wheel_directory, name), "w", zipfile.ZIP_DEFLATED) as wheel:
        for path, data in files.items():
            entry = zipfile.ZipInfo(path, MADE)
            entry.external_attr = 0o644 << 16
            wheel.writestr(entry, data)
    return name


def build_sdist(sdist_directory, config_settings=None):
    """The sources, from which a wheel can be built; their name."""
    name = f"{_name()}.tar.gz"
    files = {**_files(), "PKG-INFO": _metadata().encode()}
    for path in ("pyproject.toml", "build_backend/wheels.py"):
        with open(os.path.join(ROOT, path), "rb") as file:
            files[path] = file.read()
    with tarfile.open(os.path.join(sdist_directory, name), "w:gz") as sources:
        for path, data in files.items():
            entry = tarfile.TarInfo(f"{_name()}/{path}")
            entry.size = len(data)
            sources.addfile(entry, io.BytesIO(data))
    return name
