"""What the clients share: commands with a time, of which a sample has little."""
import os
import subprocess
import time

SHOWN = 1500


class LeftOut(Exception):
    """Why a client is left out: no fault of the library's."""


class Time:
    """How long everything may take together. No limit, unless it is given."""

    def __init__(self, seconds=None):
        self.end = None if seconds is None else time.monotonic() + seconds

    def of(self, seconds):
        """What a command may take that is allowed so many seconds."""
        if self.end is None:
            return seconds
        left = self.end - time.monotonic()
        if left <= 0:
            raise LeftOut("no time was left")
        return min(seconds, left)


TIME = Time()


def limit(seconds):
    """Gives all that is done from now on so many seconds."""
    TIME.end = Time(seconds).end


def jobs():
    """How many compilers run at a time: AQS_JOBS, or as many as there are processors."""
    return int(os.environ.get("AQS_JOBS", "0")) or len(os.sched_getaffinity(0))


def ran(words, folder, seconds, **environment):
    """Runs a command. Returns its status, or None if it did not end in time, and what it said."""
    allowed = TIME.of(seconds)
    try:
        done = subprocess.run(
            words, cwd=folder, stdin=subprocess.DEVNULL, stdout=subprocess.PIPE, stderr=subprocess.STDOUT,
            timeout=allowed, text=True, errors="replace", env={**os.environ, **environment}, check=False)
    except subprocess.TimeoutExpired as late:
        if allowed < seconds:
            raise LeftOut("no time was left") from late
        return None, f"{os.path.basename(words[0])} did not end in {seconds} seconds"
    except OSError as error:
        return None, str(error)
    return done.returncode, done.stdout


def fault_of(words, folder, seconds, **environment):
    """Runs a command. Returns nothing if it went well, and else why not, with the end of what it said."""
    status, told = ran(words, folder, seconds, **environment)
    if status == 0:
        return ""
    return f"{os.path.basename(words[0])}: status {status}\n{told[-SHOWN:]}"
