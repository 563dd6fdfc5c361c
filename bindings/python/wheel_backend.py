"""Makes the wheel: this package and libaqs.so. pip calls it (pyproject.toml), and `python3 wheel_backend.py
FOLDER` does too. It needs nothing but Python."""
import base64
import hashlib
import os
import pathlib
import platform
import re
import sys
import zipfile

HERE = pathlib.Path(__file__).resolve().parent
LIBRARY = pathlib.Path(os.environ.get("AQS_SO", str(HERE.parent / "c" / "out" / "libaqs.so")))


def _project():
    """The names and texts of pyproject.toml, which older Pythons can't read."""
    return dict(re.findall(r'(?m)^([\w-]+) = "(.*)"$', (HERE / "pyproject.toml").read_text(encoding="utf-8")))


def _contents(tag):
    """Each file of the wheel, by its name there. The list of files comes last."""
    project = _project()
    about = f"{project['name']}-{project['version']}.dist-info"
    for file in sorted((HERE / "aqs").glob("*.py")) + [HERE / "aqs" / "py.typed"]:
        yield f"aqs/{file.name}", file.read_bytes()
    yield "aqs/libaqs.so", LIBRARY.read_bytes()
    metadata = {
        "Metadata-Version": "2.1", "Name": project["name"], "Version": project["version"],
        "Summary": project["description"], "Requires-Python": project["requires-python"],
    }
    yield f"{about}/METADATA", _lines(metadata)
    wheel = {"Wheel-Version": "1.0", "Generator": "wheel_backend", "Root-Is-Purelib": "false", "Tag": tag}
    yield f"{about}/WHEEL", _lines(wheel)


def _lines(pairs):
    return "".join(f"{name}: {value}\n" for name, value in pairs.items()).encode()


def _recorded(name, data):
    digest = base64.urlsafe_b64encode(hashlib.sha256(data).digest()).rstrip(b"=").decode()
    return f"{name},sha256={digest},{len(data)}\n"


def build_wheel(wheel_directory, config_settings=None, metadata_directory=None):
    if not LIBRARY.is_file():
        sys.exit(f"{LIBRARY} is missing: run 'make -C bindings/c' first, or set AQS_SO to the library's file")
    project = _project()
    tag = f"py3-none-linux_{platform.machine()}"
    name = f"{project['name']}-{project['version']}-{tag}.whl"
    record = ""
    with zipfile.ZipFile(os.path.join(wheel_directory, name), "w", zipfile.ZIP_DEFLATED) as wheel:
        for file, data in _contents(tag):
            wheel.writestr(file, data)
            record += _recorded(file, data)
        own = f"{project['name']}-{project['version']}.dist-info/RECORD"
        wheel.writestr(own, f"{record}{own},,\n")
    return name


def get_requires_for_build_wheel(config_settings=None):
    return []


if __name__ == "__main__":
    print(build_wheel(sys.argv[1] if len(sys.argv) > 1 else "."))
