#!/usr/bin/env python3
"""Packs the Python package with its library as a wheel: wheel.py PACKAGE LIBRARY VERSION FOLDER."""
import base64
import hashlib
import pathlib
import sys
import zipfile

TAG = "py3-none-linux_x86_64"
METADATA = """Metadata-Version: 2.1
Name: aqs
Version: {version}
Summary: Synchronisers of java.util.concurrent whose decisions are proved
License: MIT OR Apache-2.0
Requires-Python: >=3.8
"""
WHEEL = f"Wheel-Version: 1.0\nGenerator: tunicschist\nRoot-Is-Purelib: false\nTag: {TAG}\n"


def files_of(package, library, version):
    """Returns the files of the wheel, but for the list of them, each with its bytes."""
    sources = sorted(it for it in package.rglob("*") if it.is_file() and "__pycache__" not in it.parts)
    files = {f"aqs/{it.relative_to(package)}": it.read_bytes() for it in sources}
    files["aqs/libaqs.so"] = library.read_bytes()
    info = f"aqs-{version}.dist-info"
    files[f"{info}/METADATA"] = METADATA.format(version=version).encode()
    files[f"{info}/WHEEL"] = WHEEL.encode()
    return files, f"{info}/RECORD"


def record(files, name):
    """Returns the list of files, each with its sum and its length."""
    sums = {it: base64.urlsafe_b64encode(hashlib.sha256(data).digest()).rstrip(b"=") for it, data in files.items()}
    lines = [f"{it},sha256={sums[it].decode()},{len(data)}" for it, data in files.items()]
    return ("\n".join([*lines, f"{name},,"]) + "\n").encode()


def main(words):
    if len(words) != 4:
        sys.exit(__doc__)
    version = words[2]
    files, name = files_of(pathlib.Path(words[0]), pathlib.Path(words[1]), version)
    files[name] = record(files, name)
    with zipfile.ZipFile(f"{words[3]}/aqs-{version}-{TAG}.whl", "w", zipfile.ZIP_DEFLATED) as wheel:
        for path, data in files.items():
            wheel.writestr(zipfile.ZipInfo(path, (2026, 1, 1, 0, 0, 0)), data, zipfile.ZIP_DEFLATED)


if __name__ == "__main__":
    main(sys.argv[1:])
