"""Builds the wheel of this package with Python's own library alone, so that `pip install ./python` needs no network.

It is the in-tree backend that pyproject.toml names (PEP 517), and reads from there what the wheel says of itself.
"""

import base64
import hashlib
import io
import os
import re
import tarfile
import zipfile

HERE = os.path.dirname(os.path.abspath(__file__))
# The earliest time that an archive can have, so that the same sources give the same bytes.
WHEN = (1980, 1, 1, 0, 0, 0)


def project():
    """Returns the project's fields that are texts, and its commands, as pyproject.toml has them."""
    with open(os.path.join(HERE, "pyproject.toml"), encoding="utf-8") as file:
        text = file.read()
    parts = dict(re.findall(r"(?ms)^\[([^]]+)\]\n(.*?)(?=^\[|\Z)", text))
    fields = dict(re.findall(r'(?m)^([\w-]+) = "([^"]*)"$', parts["project"]))
    scripts = dict(re.findall(r'(?m)^([\w-]+) = "([^"]*)"$', parts["project.scripts"]))
    return fields, scripts


def metadata(fields):
    with open(os.path.join(HERE, fields["readme"]), encoding="utf-8") as file:
        readme = file.read()
    return (f"Metadata-Version: 2.1\nName: {fields['name']}\nVersion: {fields['version']}\n"
            f"Summary: {fields['description']}\nLicense: {fields['license']}\n"
            f"Requires-Python: {fields['requires-python']}\nDescription-Content-Type: text/markdown\n\n{readme}")


def sources():
    """Yields the package's files, by their paths from here."""
    for folder, folders, names in os.walk(os.path.join(HERE, "mdvsp")):
        folders[:] = sorted(it for it in folders if it != "__pycache__")
        for name in sorted(names):
            if not name.endswith(".pyc"):
                yield os.path.relpath(os.path.join(folder, name), HERE).replace(os.sep, "/")


def info_files(fields, scripts):
    """Returns the files of the folder that describes the wheel, but for its record."""
    commands = "".join(f"{name} = {target}\n" for name, target in scripts.items())
    return {
        "METADATA": metadata(fields),
        "WHEEL": "Wheel-Version: 1.0\nGenerator: build_backend\nRoot-Is-Purelib: true\nTag: py3-none-any\n",
        "entry_points.txt": f"[console_scripts]\n{commands}",
    }


def record_row(path, data):
    digest = base64.urlsafe_b64encode(hashlib.sha256(data).digest()).rstrip(b"=").decode()
    return f"{path},sha256={digest},{len(data)}\n"


def write_wheel(folder, files):
    """Writes a wheel of these files, by their paths in it, and returns its name."""
    fields, scripts = project()
    stem = f"{fields['name']}-{fields['version']}"
    files.update((f"{stem}.dist-info/{name}", text.encode()) for name, text in info_files(fields, scripts).items())
    record = f"{stem}.dist-info/RECORD"
    rows = "".join(record_row(path, data) for path, data in files.items())
    files[record] = f"{rows}{record},,\n".encode()
    name = f"{stem}-py3-none-any.whl"
    with zipfile.ZipFile(os.path.join(folder, name), "w", zipfile.ZIP_DEFLATED) as wheel:
        for path, data in files.items():
            wheel.writestr(zipfile.ZipInfo(path, WHEN), data)
    return name


def read(path):
    with open(os.path.join(HERE, path), "rb") as file:
        return file.read()


def build_wheel(wheel_directory, config_settings=None, metadata_directory=None):
    """Builds the wheel that is installed."""
    return write_wheel(wheel_directory, {path: read(path) for path in sources()})


def build_editable(wheel_directory, config_settings=None, metadata_directory=None):
    """Builds a wheel that leads to the sources, for `pip install -e ./python`."""
    return write_wheel(wheel_directory, {"mdvsp.pth": f"{HERE}\n".encode()})


def build_sdist(sdist_directory, config_settings=None):
    """Builds an archive of the sources."""
    fields, _ = project()
    stem = f"{fields['name']}-{fields['version']}"
    with tarfile.open(os.path.join(sdist_directory, f"{stem}.tar.gz"), "w:gz", format=tarfile.PAX_FORMAT) as archive:
        for path in ["pyproject.toml", "build_backend.py", fields["readme"], *sources()]:
            archive.add(os.path.join(HERE, path), f"{stem}/{path}")
        data = metadata(fields).encode()
        entry = tarfile.TarInfo(f"{stem}/PKG-INFO")
        entry.size = len(data)
        archive.addfile(entry, io.BytesIO(data))
    return f"{stem}.tar.gz"
