"""What threads wait for together: Event, Barrier, CountDownLatch."""
import ctypes
import threading
from typing import Any, Callable, List, Optional

from ._conditions import Condition
from ._library import OPTIONS, check, library
from ._locks import Monitor, acquired
from ._object import Opened, Recorded, options_of, refuse_unknown
from ._waiting import calls_of, moment, number

BrokenBarrierError = threading.BrokenBarrierError


class Gate(Recorded):
    """What has one lock with one condition."""

    def _open(self, options: Any) -> None:
        refuse_unknown(type(self).__name__, options, (*OPTIONS, "conditions"))
        self._lock = Monitor(**{"conditions": 1, **options})
        self._opened = self._lock._opened
        self._cond = Condition(self._lock)

    def close(self) -> None:
        self._lock.close()

    def _at_fork_reinit(self) -> None:
        self._cond._at_fork_reinit()


class Event(Gate):
    """A flag that threads wait for: threading.Event over the library. The options are those of RLock."""

    def __init__(self, **options: Any) -> None:
        self._open(options)
        self._flag = False

    def is_set(self) -> bool:
        return self._flag

    isSet = is_set

    def set(self) -> None:
        """Sets the flag, and lets all who wait go on."""
        with self._cond:
            self._cond.notify_all()
            self._flag = True

    def clear(self) -> None:
        with self._cond:
            self._flag = False

    def wait(self, timeout: Optional[float] = None) -> bool:
        """Waits until the flag is set. False if the time was up before."""
        until = moment(timeout)
        with self._cond:
            return self._flag or self._cond._wait(self._cond._queue, until, False)

    def __repr__(self) -> str:
        return f"<{self._name()} at {id(self):#x}: {'set' if self._flag else 'unset'}>"


class _Generation:
    """Those who meet at a barrier once."""

    def __init__(self) -> None:
        self.count = 0
        self.is_over = self.is_broken = False


class Barrier(Gate):
    """Threads that meet, as often as they like: threading.Barrier over the library. The options are those of
    RLock."""

    def __init__(
        self, parties: int, action: Optional[Callable[[], Any]] = None, timeout: Optional[float] = None,
        **options: Any,
    ) -> None:
        if parties < 1:
            raise ValueError("parties must be > 0")
        self._parties, self._action, self._timeout = parties, action, timeout
        self._open(options)
        self._generation = _Generation()

    def wait(self, timeout: Optional[float] = None) -> int:
        """Waits until `parties` threads have called it, and returns which of them the caller is, from 0 on.
        The last one runs the action before the others go on. BrokenBarrierError if the time is up for any of
        them, the action fails, or the barrier is reset or aborted."""
        until = moment(self._timeout if timeout is None else timeout)
        with self._cond:
            met = self._generation
            if met.is_broken:
                raise BrokenBarrierError
            index = met.count
            met.count += 1
            if met.count == self._parties:
                self._meet(met)
            else:
                self._wait(met, until)
            return index

    # Those who wait go on when the last one gives the lock up. So a full history may be told before anything
    # changes.
    def _meet(self, met: _Generation) -> None:
        try:
            self._cond.notify_all()
        except BaseException:
            met.count -= 1
            raise
        try:
            if self._action:
                self._action()
        except BaseException:
            self._break(met)
            raise
        met.is_over = True
        self._generation = _Generation()

    def _wait(self, met: _Generation, until: Optional[float]) -> None:
        try:
            while not (met.is_over or met.is_broken):
                if not self._cond._wait(self._cond._queue, until, False) and not met.is_over:
                    self._break(met)
        except BaseException:
            met.count -= not (met.is_over or met.is_broken)
            raise
        if met.is_broken:
            raise BrokenBarrierError

    def _break(self, met: _Generation) -> None:
        self._cond.notify_all()
        met.is_broken = True

    def reset(self) -> None:
        """Lets those who wait go with BrokenBarrierError, and begins anew."""
        with self._cond:
            self._break(self._generation)
            self._generation = _Generation()

    def abort(self) -> None:
        """Breaks the barrier until it is reset: those who wait, and who come, get BrokenBarrierError."""
        with self._cond:
            self._break(self._generation)

    @property
    def parties(self) -> int:
        return self._parties

    @property
    def n_waiting(self) -> int:
        met = self._generation
        return 0 if met.is_broken else met.count

    @property
    def broken(self) -> bool:
        return self._generation.is_broken

    def __repr__(self) -> str:
        state = "broken" if self.broken else f"waiters={self.n_waiting}/{self._parties}"
        return f"<{self._name()} at {id(self):#x}: {state}>"


class CountDownLatch(Recorded):
    """A gate that opens for good when it has been counted down often enough. The options are those of RLock,
    but `conditions` and `policy`."""

    _calls = calls_of("latch", "await", "await_interruptibly", "timedawait")

    def __init__(self, count: int, **options: Any) -> None:
        refuse_unknown(type(self).__name__, options)
        self._opened = Opened("latch", (number(count, 0, 2**31 - 1, "count"),), options_of(**options))

    def count_down(self) -> None:
        """Lowers the count by one, and lets all who wait go on if it is 0 then. At 0 it does nothing."""
        check(library.aqs_latch_count_down(self._opened.handle))

    def count(self) -> int:
        """The count, which another thread may lower at any time."""
        count = ctypes.c_uint32()
        check(library.aqs_latch_getcount(self._opened.handle, ctypes.byref(count)))
        return count.value

    def wait(self, timeout: Optional[float] = None, *, interruptible: bool = False) -> bool:
        """Waits until the count is 0. False if the time was up before; None is no time."""
        ran: List[int] = []
        return acquired(ran, self._calls, (self._opened.handle,), True, moment(timeout), interruptible)

    def __repr__(self) -> str:
        count = self._state(lambda: f"count={self.count()}")
        return f"<{self._name()} at {id(self):#x}: {count}>"
