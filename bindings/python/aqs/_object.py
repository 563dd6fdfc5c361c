"""Objects of the library: how they are opened and closed, and their histories."""
import ctypes
from typing import Any, Callable, Optional

from ._library import NO_SPACE, OPTIONS, Error, Options, Policy, check, library
from ._waiting import number


class _Handle(ctypes.c_void_p):
    """The pointer to an open object. Each call refers to it as long as it runs, so the object is closed after
    its last call, even if that is still on its way out in another thread."""

    def __init__(self, pointer: int, close: Any) -> None:
        super().__init__(pointer)
        self.close = close

    def __del__(self) -> None:
        close = getattr(self, "close", None)
        if close:
            close(self)


def refuse_unknown(what: str, options: Any, known: Any = OPTIONS) -> None:
    """Refuses what is no option of this class, by the name that the caller gave it."""
    for name in options:
        if name not in known:
            raise TypeError(f"{what}() got an unexpected keyword argument {name!r}. Its options: {', '.join(known)}")


def options_of(
    policy: int = Policy.NONFAIR, keep_history: bool = False, most_entries: int = 0, threads: int = 0,
    conditions: int = 0,
) -> Options:
    """How an object is opened. 0 is the default of C."""
    return Options(
        Policy(policy), int(bool(keep_history)),
        most_entries and number(most_entries, 16, 2**32 - 1, "most_entries"),
        threads and number(threads, 1, 256, "threads"),
        conditions and number(conditions, 1, 16, "conditions"),
    )


class Opened:
    """An object of the library, which its types share. It has its handle until it is closed, which may be
    while a thread waits in it."""

    handle: _Handle

    def __init__(self, kind: str, numbers: Any, options: Options) -> None:
        self._kind, self._numbers, self._options = kind, numbers, options
        self.reopen()

    def __getattr__(self, name: str) -> Any:
        if name == "handle":
            raise ValueError("the object is closed")
        raise AttributeError(name)

    @property
    def is_closed(self) -> bool:
        return "handle" not in self.__dict__

    def function(self, name: str) -> Any:
        return getattr(library, f"aqs_{self._kind}_{name}")

    def reopen(self) -> None:
        place = ctypes.c_void_p()
        check(self.function("open")(ctypes.byref(place), *self._numbers, ctypes.byref(self._options)))
        self.handle = _Handle(place.value or 0, self.function("close"))

    def abandon(self) -> None:
        """Opens a new object. The old one is never closed: after a fork another thread may be inside it for
        good."""
        self.handle.close = None
        self.reopen()

    def close(self) -> Optional[_Handle]:
        """From here on it is closed, for the calls under way too. Returns what they still use."""
        return self.__dict__.pop("handle", None)

    def text(self, call: Any) -> str:
        """The text that a call of any object puts into a buffer."""
        # Other threads may lengthen the text between two tries. So each try has twice the spare room, until
        # the room is twice the text.
        size, share, length = 4096, 8, ctypes.c_size_t()
        while True:
            buffer = ctypes.create_string_buffer(size)
            handle = self.handle
            object_ = self.function("object")(handle)
            status = call(object_, buffer, size, ctypes.byref(length))
            if status != NO_SPACE:
                check(status)
                # The name of a thread may be cut within a character.
                return buffer.raw[: length.value].decode("utf-8", "replace")
            size, share = length.value + length.value // share, max(share // 2, 1)

    def policy(self) -> Policy:
        handle = self.handle
        return Policy(library.aqs_object_policy(self.function("object")(handle)))

    def count(self, call: Any, kind: Any = ctypes.c_uint32) -> int:
        """The number, of this type of C, that a call of any object puts into its place."""
        count, handle = kind(), self.handle
        check(call(self.function("object")(handle), ctypes.byref(count)))
        return count.value


class Unpickled:
    """What can be neither pickled nor copied, as the locks of threading."""

    def __reduce__(self) -> Any:
        raise TypeError(f"cannot pickle {type(self).__name__!r} object")


class Recorded(Unpickled):
    """What has a history."""

    _opened: Opened

    def history(self) -> str:
        """The text of the history since the last trim, as `aqs audit` and `aqs draw` read it."""
        return self._opened.text(library.aqs_history_text)

    def names(self) -> str:
        """Which thread each seat of the history is, or was last, as `aqs draw --names` reads it: for each seat a
        line with its number and the name that the system has of the thread."""
        return self._opened.text(library.aqs_history_names)

    def save(self, path: Any) -> None:
        """Writes the history to a file, and the names of its seats to a file beside it, PATH.names."""
        for name, text in ((f"{path}", self.history()), (f"{path}.names", self.names())):
            with open(name, "w", encoding="utf-8") as file:
                file.write(text)

    def trim(self) -> int:
        """Forgets the recorded entries, and returns how many."""
        return self._opened.count(library.aqs_history_trim, ctypes.c_uint64)

    def policy(self) -> Policy:
        """The policy that it was opened with."""
        return self._opened.policy()

    def queue_length(self) -> int:
        """How many threads are in its queue: those that wait for the lock, for permits or for the latch. Others
        may come or leave before the caller reads it. It records nothing."""
        return self._opened.count(library.aqs_object_queue_length)

    def waiters(self) -> int:
        """How many threads wait in all: those in its queue, and those on its conditions. Others may come or
        leave before the caller reads it. It records nothing."""
        return self._opened.count(library.aqs_object_waiters)

    def close(self) -> None:
        """Frees its memory, at the latest when the last call that is under way has ended. Later calls raise
        ValueError, and so do those that wait in it. What is not closed is freed with its last reference."""
        self._opened.close()

    def _name(self) -> str:
        kind = type(self)
        return f"{kind.__module__}.{kind.__qualname__}"

    def _state(self, tell: Callable[[], str]) -> str:
        """What it tells, or why it can't: __repr__ raises nothing."""
        try:
            return tell()
        except Error as error:
            return str(error)
        except ValueError:
            return "closed"
