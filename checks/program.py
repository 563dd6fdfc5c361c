"""A program that is run on many texts, quickly: its input and what it writes are files in memory."""

import os
import tempfile

MEMORY = "/dev/shm"


class Program:
    """Runs a program on texts, one after another; `close` removes its files."""

    def __init__(self, path):
        self.path = os.path.abspath(path)
        self.folder = tempfile.TemporaryDirectory(dir=MEMORY if os.path.isdir(MEMORY) else None)
        self.files = [os.open(os.path.join(self.folder.name, name), os.O_RDWR | os.O_CREAT) for name in "ioe"]
        self.runs = 0

    def answer(self, words, text):
        """The exit status, or less a signal's number; what standard output was given; and standard error."""
        given = self.files[0]
        os.ftruncate(given, 0)
        os.pwrite(given, text, 0)
        for file in self.files:
            os.lseek(file, 0, os.SEEK_SET)
        actions = [(os.POSIX_SPAWN_DUP2, file, place) for place, file in enumerate(self.files)]
        child = os.posix_spawn(self.path, [self.path, *words], {}, file_actions=actions)
        _, status = os.waitpid(child, 0)
        self.runs += 1
        return os.waitstatus_to_exitcode(status), self.taken(1), self.taken(2)

    def taken(self, place):
        file = self.files[place]
        size = os.fstat(file).st_size
        if size == 0:
            return b""
        text = os.pread(file, size, 0)
        os.ftruncate(file, 0)
        return text

    def close(self):
        for file in self.files:
            os.close(file)
        self.folder.cleanup()
