"""What has permits: Semaphore, BoundedSemaphore, and Lock, which has one."""
import ctypes
from typing import Any, List, Optional

from ._library import OK, WOULD_BLOCK, check, library, quick
from ._locks import acquired
from ._object import Opened, Recorded, options_of, refuse_unknown
from ._waiting import calls_of, limit, number, run, run_taking

_MOST = 2**31 - 1


class Permits(Recorded):
    """Permits that any thread takes and gives: `with permits:`."""

    _calls = calls_of("sem", "acquire", "acquire_interruptibly", "timedacquire", "tryacquire")
    _value, _release = quick("aqs_sem_getvalue"), quick("aqs_sem_release")

    def _open(self, value: int, options: Any) -> None:
        refuse_unknown(type(self).__name__, options)
        self._opened = Opened("sem", (value,), options_of(**options))

    def _take(self, n: int, blocking: bool, timeout: Optional[float], interruptible: bool) -> bool:
        until = limit(blocking, timeout)
        handle = self._opened.handle
        ran: List[int] = []
        noted: List[Any] = []
        try:
            has = acquired(ran, self._calls, (handle, n), blocking, until, interruptible)
            if has:
                self._opened.handle  # raises if it was closed meanwhile
                self._note(noted, n)
            return has
        except BaseException:
            if ran[-1:] == [OK]:
                self._take_back(handle, noted, n)
            raise

    # Which n permits are out, where that is bounded. The last of `noted` is OK if that is known.
    def _note(self, noted: List[Any], n: int) -> None:
        pass

    def _take_back(self, handle: Any, _noted: List[Any], n: int) -> None:
        check(library.aqs_sem_release(handle, n))

    def _give(self, n: int) -> None:
        check(library.aqs_sem_release(self._opened.handle, n))

    def close(self) -> None:
        """Frees its memory, at the latest when the last call that is under way has ended. Later calls raise
        ValueError, and so do those that wait for permits."""
        handle = self._opened.close()
        if handle:
            self._wake(handle)

    def _wake(self, handle: Any) -> None:
        """All who wait for permits get them, one after another: they give them back and raise."""
        free = ctypes.c_int64()
        if self._value(handle, ctypes.byref(free)) == OK:
            while free.value < _MOST and self._release(handle, min(_MOST - free.value, _MOST)) == OK:
                free.value += min(_MOST - free.value, _MOST)

    def available(self) -> int:
        """The free permits, which may be below 0. Another thread may change them before the caller reads
        them."""
        permits = ctypes.c_int64()
        check(library.aqs_sem_getvalue(self._opened.handle, ctypes.byref(permits)))
        return permits.value

    def _at_fork_reinit(self) -> None:
        self._opened.abandon()

    def __exit__(self, *_error: object) -> None:
        self.release()

    def release(self) -> None:
        raise NotImplementedError


class Bounded(Permits):
    """Permits of which never more are free than at first. What may be given back is a semaphore too, so no
    two threads give the same permit."""

    def _open(self, value: int, options: Any) -> None:
        super()._open(value, options)
        same = {name: options[name] for name in ("threads",) if name in options}
        self._out = Opened("sem", (0,), options_of(**same))

    def _note(self, noted: List[Any], n: int) -> None:
        check(run(noted, library.aqs_sem_release, (self._out.handle, n)))

    def _take_back(self, handle: Any, noted: List[Any], n: int) -> None:
        if noted[-1:] == [OK]:
            check(library.aqs_sem_tryacquire(self._out.handle, n))
        super()._take_back(handle, noted, n)

    def _return(self, n: int) -> bool:
        """Whether n permits were out. They are free again, also after a Ctrl-C between the two calls."""
        taken: List[int] = []
        given: List[int] = []
        give = (given, library.aqs_sem_release, (self._opened.handle, n))
        try:
            if run(taken, library.aqs_sem_tryacquire, (self._out.handle, n)) == WOULD_BLOCK:
                return False
            check(taken[-1])
            check(run(*give))
            return True
        except BaseException:
            if taken[-1:] == [OK] and not given:
                run(*give)
            if given and given[-1] != OK:
                check(library.aqs_sem_release(self._out.handle, n))
            raise

    def close(self) -> None:
        super().close()
        self._out.close()

    def _at_fork_reinit(self) -> None:
        super()._at_fork_reinit()
        self._out.abandon()


class Semaphore(Permits):
    """Permits that any thread takes and gives: threading.Semaphore over the library.

    The options are those of RLock, but `conditions`. With `allow_negative` the value may be below 0: then as
    many releases come first.
    """

    def __init__(self, value: int = 1, *, allow_negative: bool = False, **options: Any) -> None:
        if value < 0 and not allow_negative:
            raise ValueError("semaphore initial value must be >= 0")
        self._open(number(value, -(2**31), _MOST, "value"), options)

    def acquire(
        self, blocking: bool = True, timeout: Optional[float] = None, *, n: int = 1,
        interruptible: bool = False,
    ) -> bool:
        """Takes n permits at once. False if they aren't free and `blocking` is False, or if the time was up.
        A timeout of -1 or None is no time. If `interruptible`, aqs.interrupt ends the wait with
        Interrupted."""
        return self._take(number(n, 1, _MOST, "n"), blocking, timeout, interruptible)

    def release(self, n: int = 1) -> None:
        """Gives n permits, whoever took them."""
        self._give(number(n, 1, _MOST, "n"))

    def drain(self) -> int:
        """Takes all free permits, and returns how many."""
        n = ctypes.c_uint32()
        check(library.aqs_sem_drain(self._opened.handle, ctypes.byref(n)))
        return n.value

    def __enter__(self) -> bool:
        return self.acquire()

    def __repr__(self) -> str:
        value = self._state(lambda: f"value={self.available()}")
        return f"<{self._name()} at {id(self):#x}: {value}>"


class BoundedSemaphore(Bounded):
    """Permits of which never more are free than at first: threading.BoundedSemaphore over the library."""

    def __init__(self, value: int = 1, **options: Any) -> None:
        if value < 0:
            raise ValueError("semaphore initial value must be >= 0")
        self._initial_value = number(value, 0, _MOST, "value")
        self._open(self._initial_value, options)

    def acquire(
        self, blocking: bool = True, timeout: Optional[float] = None, *, n: int = 1,
        interruptible: bool = False,
    ) -> bool:
        """The same as Semaphore.acquire."""
        return self._take(number(n, 1, _MOST, "n"), blocking, timeout, interruptible)

    def release(self, n: int = 1) -> None:
        """Gives n permits, whoever took them. ValueError if fewer are out."""
        if not self._return(number(n, 1, _MOST, "n")):
            raise ValueError("Semaphore released too many times")

    def __enter__(self) -> bool:
        return self.acquire()

    def __repr__(self) -> str:
        value = self._state(lambda: f"value={self.available()}/{self._initial_value}")
        return f"<{self._name()} at {id(self):#x}: {value}>"


class Lock(Permits):
    """A lock that isn't reentrant and that any thread may release: threading.Lock over the library. In its
    history it is a semaphore with one permit. Use RLock if the thread that locks is the one that unlocks."""

    def __init__(self, **options: Any) -> None:
        self._open(1, options)
        # While the permit is out, what gives it back. The thread that does takes it first.
        self._out: List[Any] = []

    def acquire(
        self, blocking: bool = True, timeout: Optional[float] = -1, *, interruptible: bool = False
    ) -> bool:
        """Takes it. False if it isn't free and `blocking` is False, or if the time was up. A timeout of -1 or
        None is no time. If `interruptible`, aqs.interrupt ends the wait with Interrupted."""
        until = limit(blocking, timeout)
        one = (self._opened.handle, 1)
        ran: List[Any] = []
        try:
            has = acquired(ran, self._calls, one, blocking, until, interruptible)
            if has:
                self._opened.handle  # raises if it was closed meanwhile
                run(ran, self._out.append, (one,))
            return has
        except BaseException:
            # The last is what `append` returned, if the permit is known to be out.
            if ran[-1:] == [None]:
                self._out.pop()
                ran.pop()
            if ran and ran[-1] == OK:
                check(self._release(*one))
            raise

    def release(self) -> None:
        """Frees it. RuntimeError if it is free."""
        one = (self._opened.handle, 1)
        given: List[int] = []
        try:
            if run_taking(given, self._release, self._out.pop) != OK:
                check(given[-1])
        except IndexError:
            raise RuntimeError("release unlocked lock") from None
        except BaseException:
            if given and given[-1] != OK:
                self._out.append(one)
            raise

    def locked(self) -> bool:
        """Whether it is taken. Another thread may change that before the caller reads it."""
        return self.available() < 1

    def _at_fork_reinit(self) -> None:
        super()._at_fork_reinit()
        self._out.clear()

    def __enter__(self) -> bool:
        return self.acquire()

    def __repr__(self) -> str:
        state = self._state(lambda: "locked" if self.locked() else "unlocked")
        return f"<{state} {self._name()} object at {id(self):#x}>"
