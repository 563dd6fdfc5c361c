"""Debian's packages, for the clients: fetched by apt-get into a folder of ours. Nothing of the system changes."""
import glob
import os
import pathlib
import sys
import tarfile

import common
from common import LeftOut

MIRROR = "http://deb.debian.org/debian"
KEYRING = "/usr/share/keyrings/debian-archive-keyring.gpg"
REACHED = 8  # seconds for the look whether the mirror is there
SECONDS = 600  # for one command of apt-get: a busy machine takes minutes to unpack the lists
LOOK = "import socket; socket.create_connection(('deb.debian.org', 80), 5).close()"


def release_of(text):
    """The code name of Debian's release, by the text of /etc/os-release."""
    values = dict(line.split("=", 1) for line in text.splitlines() if "=" in line)
    name = values.get("VERSION_CODENAME", "").strip('"')
    if values.get("ID", "").strip('"') != "debian" or not name:
        raise LeftOut("this is no Debian")
    return name


def sources_of(release):
    """The lines of sources.list for packages and sources of a release."""
    return "".join(f"{kind} [signed-by={KEYRING}] {MIRROR} {release} main\n" for kind in ("deb", "deb-src"))


def reason_in(told):
    """The line of apt-get that says why, or its last one."""
    lines = [line.strip() for line in told.splitlines() if line.strip()]
    errors = [line for line in lines if line.startswith(("E:", "W:", "Err:"))]
    return (errors or lines or ["apt-get said nothing"])[0]


def can_reach():
    """Whether the mirror answers. A name server that never answers is given up after some seconds."""
    if any(os.environ.get(name) for name in ("http_proxy", "HTTP_PROXY")):
        return True
    status, _ = common.ran([sys.executable, "-c", LOOK], "/", REACHED)
    return status == 0


class Packages:
    """What was fetched is kept in the folder, and not fetched again."""

    def __init__(self, folder):
        self.folder = pathlib.Path(folder)
        self.is_ready, self.refusal = False, None

    def _words(self):
        """What tells apt-get to use lists of its own."""
        settings = {
            "Dir::Etc::sourcelist": self.folder / "sources.list", "Dir::Etc::sourceparts": "-",
            "Dir::State::lists": self.folder / "lists", "Dir::Cache": self.folder / "cache",
            "APT::Sandbox::User": "", "Acquire::Languages": "none", "Acquire::http::Timeout": "10",
            "Acquire::Retries": "1", "Debug::NoLocking": "1",
        }
        return [word for name, value in settings.items() for word in ("-o", f"{name}={value}")]

    def _apt(self, *words):
        status, told = common.ran(["apt-get", "-q", *self._words(), *words], self.folder, SECONDS)
        if status != 0:
            raise LeftOut(reason_in(told))

    def prepare(self):
        """Reads the lists of packages, once a run."""
        if self.refusal:
            raise self.refusal
        try:
            if not self.is_ready:
                self._read_lists()
        except LeftOut as refusal:
            self.refusal = refusal
            raise

    def _read_lists(self):
        release = release_of(pathlib.Path("/etc/os-release").read_text(encoding="utf-8"))
        if not os.path.exists(KEYRING):
            raise LeftOut(f"there is no {KEYRING}")
        if not can_reach():
            raise LeftOut("the network has no deb.debian.org")
        for name in ("lists/partial", "cache/archives/partial"):
            (self.folder / name).mkdir(parents=True, exist_ok=True)
        (self.folder / "sources.list").write_text(sources_of(release), encoding="utf-8")
        self._apt("update")
        self.is_ready = True

    def _found(self, pattern):
        found = sorted(glob.glob(str(self.folder / pattern)))
        return found[-1] if found else None

    def source(self, name, room):
        """Unpacks the upstream source of a package into a folder, and returns the folder in which it lies."""
        if not self._found(f"{name}_*.orig.tar.*"):
            self.prepare()
            self._apt("source", "--download-only", name)
        archive = self._found(f"{name}_*.orig.tar.*")
        if not archive:
            raise LeftOut(f"the source of {name} has no archive")
        with tarfile.open(archive) as tar:
            top = tar.getnames()[0].split("/")[0]
            tar.extractall(room)
        return pathlib.Path(room) / top

    def unpacked(self, *names):
        """Unpacks packages, and returns the folder that stands for the root of the system."""
        root = self.folder / "root"
        lacking = [name for name in names if not self._found(f"{name}_*.deb")]
        if lacking:
            self.prepare()
            self._apt("download", *lacking)
        for name in names:
            told = common.fault_of(["dpkg-deb", "-x", self._found(f"{name}_*.deb"), str(root)], self.folder, SECONDS)
            if told:
                raise LeftOut(reason_in(told))
        return root
