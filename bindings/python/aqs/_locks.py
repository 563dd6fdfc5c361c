"""The locks with an owner: RLock, and the two sides of RWLock."""
import ctypes
from typing import Any, Callable, Dict, List, Optional, TypeVar

from ._conditions import Numbers, Queue, Waitable
from ._library import OK, OPTIONS, TIMED_OUT, WOULD_BLOCK, NotOwner, check, library, quick
from ._object import Opened, Recorded, Unpickled, options_of, refuse_unknown
from ._waiting import calls_of, limit, moment, number, run, threads, turn, wait

T = TypeVar("T")

# As many conditions as a lock of the library may have.
CONDITIONS = 16


def acquired(
    ran: List[int], calls: Any, arguments: Any, blocking: bool, until: Optional[float], interruptible: bool
) -> bool:
    """Whether a call has taken what it asks for. The last of `ran` is its status."""
    if blocking:
        status = wait(ran, calls, arguments, until, interruptible)
    else:
        status = run(ran, calls.trying, arguments)
    if status in (TIMED_OUT, WOULD_BLOCK):
        return False
    if status != OK:
        check(status)
    return True


class Side(Unpickled):
    """What is acquired and released, each as often as the other: `with side:`."""

    _opened: Opened
    _calls: Any
    _unlock: Any

    def acquire(
        self, blocking: bool = True, timeout: Optional[float] = -1, *, interruptible: bool = False
    ) -> bool:
        """Takes it. False if it isn't free and `blocking` is False, or if the time was up. A timeout of -1 or
        None is no time. If `interruptible`, aqs.interrupt ends the wait with Interrupted."""
        until = limit(blocking, timeout)
        handle = self._opened.handle
        before = self._recursion_count()
        ran: List[int] = []
        try:
            has = acquired(ran, self._calls, (handle,), blocking, until, interruptible)
            if has:
                self._opened.handle  # raises if it was closed meanwhile
                self._set_count(before + 1)
            return has
        except BaseException:
            if ran[-1:] == [OK]:
                self._set_count(before)
                self._unlock(handle)
            raise

    def release(self) -> None:
        """Gives one hold back. NotOwner, a RuntimeError, if the thread has none."""
        handle = self._opened.handle
        count = self._recursion_count()
        if not count:
            raise NotOwner("cannot release un-acquired lock")
        try:
            self._set_count(count - 1)
        finally:
            status = self._unlock(handle)
            if status != OK:
                check(status)

    def locked(self) -> bool:
        """Whether any thread holds it. Another thread may change that before the caller reads it."""
        raise NotImplementedError

    def holds(self) -> int:
        """How often the calling thread holds it."""
        return self._recursion_count()

    def _recursion_count(self) -> int:
        raise NotImplementedError

    def _set_count(self, count: int) -> None:
        raise NotImplementedError

    def _is_owned(self) -> bool:
        return self._recursion_count() > 0

    def _release_save(self) -> int:
        count = self._recursion_count()
        if not count:
            raise NotOwner("cannot release un-acquired lock")
        for _ in range(count):
            self.release()
        return count

    # A thread that ends with a hold would keep its number for good.
    def _free(self, handle: Any) -> None:
        """Gives all its holds back, by the handle of an object that may be closed."""
        for left in reversed(range(self._recursion_count())):
            self._set_count(left)
            self._unlock(handle)

    # No signal ends it, so that a wait on a condition always ends with the lock. Ctrl-C is raised afterwards.
    def _acquire_restore(self, count: int) -> None:
        ran: List[int] = []
        try:
            run(ran, self._calls.plain, (self._opened.handle,))
        finally:
            while len(ran) < count and ran.count(OK) == len(ran):
                run(ran, self._calls.plain, (self._opened.handle,))
            if OK in ran:
                self._set_count(ran.count(OK))
        check(ran[-1])

    def __enter__(self) -> bool:
        return self.acquire()

    def __exit__(self, *_error: object) -> None:
        self.release()


class Exclusive(Side, Waitable):
    """A side that one thread has at a time, with conditions. What it keeps beside the library, only the owner
    changes."""

    _waits: Any
    _one: Any
    _all: Any
    _is_locked: Any

    def _open(self, opened: Opened, conditions: int) -> None:
        self._opened = opened
        self._owner: Optional[object] = None
        self._count = 0
        self._numbers = Numbers(conditions)
        self._queues: Dict[int, Queue] = {}

    def locked(self) -> bool:
        is_locked = ctypes.c_bool()
        check(self._is_locked(self._opened.handle, ctypes.byref(is_locked)))
        return is_locked.value

    def _recursion_count(self) -> int:
        return self._count if self._owner is threads.me else 0

    def _set_count(self, count: int) -> None:
        self._count = count
        self._owner = threads.me if count else None

    def wait(
        self, timeout: Optional[float] = None, *, condition: int = 0, interruptible: bool = False
    ) -> bool:
        """Gives the lock up, waits until the condition is notified, and has the lock again with the same
        holds. False if the time was up before. As in threading, a time of 0 or below is up at once, and None
        is no time."""
        return self._wait(self._queue_of(condition), moment(timeout), interruptible)

    def wait_for(
        self, predicate: Callable[[], T], timeout: Optional[float] = None, *, condition: int = 0,
        interruptible: bool = False,
    ) -> T:
        """Waits until the predicate holds, or the time is up. Returns what the predicate returned last."""
        return self._wait_for(self._queue_of(condition), predicate, timeout, interruptible)

    def notify(self, n: int = 1, *, condition: int = 0) -> None:
        """Wakes the n that have waited longest on the condition. Only the owner may call it."""
        self._notify(self._queue_of(condition), n)

    def notify_all(self, *, condition: int = 0) -> None:
        """Wakes all who wait on the condition. Only the owner may call it."""
        self._notify(self._queue_of(condition), None)

    def _queue_of(self, condition: int) -> Queue:
        condition = number(condition, 0, len(self._numbers.users) - 1, "condition")
        return self._queues.setdefault(condition, Queue(condition))

    def _await(self, ran: List[int], condition: int, until: Optional[float], interruptible: bool) -> int:
        """One wait of the library, which has given the lock up and taken it again when it returns."""
        count, handle = self._count, self._opened.handle
        try:
            self._set_count(0)
            return turn(ran, self._waits, (handle, condition), until, interruptible)
        finally:
            self._set_count(count)
            if self._opened.is_closed:
                self._free(handle)
                self._opened.handle  # raises if it was closed meanwhile

    def _signal(self, condition: int) -> None:
        check(self._one(self._opened.handle, condition))

    def _signal_all(self, condition: int) -> None:
        check(self._all(self._opened.handle, condition))

    def _close(self) -> None:
        """Closes the object while this thread owns the lock, and gives all its holds back. Nobody else is then
        between two calls of it: who waits gets the lock, finds it closed, and raises."""
        handle, is_owned = self._opened.handle, self._is_owned()
        status = OK if is_owned else self._calls.trying(handle)
        if status == WOULD_BLOCK:
            raise RuntimeError("another thread holds the lock")
        self._opened.close()
        self._wake_all(handle)
        self._free(handle)
        if status == OK and not is_owned:
            self._unlock(handle)

    def _wake_all(self, handle: Any) -> None:
        for condition, users in enumerate(self._numbers.users):
            if users:
                self._all(handle, condition)

    def _reinit(self) -> None:
        self._open(self._opened, len(self._numbers.users))


class RLock(Exclusive, Recorded):
    """A reentrant lock with conditions: threading.RLock over the library.

    `policy` says which new calls queue up; `keep_history` keeps each entry, where else the oldest are
    forgotten; `most_entries` bounds the history; `threads` is how many can hold it or wait for it at a time;
    `conditions` is how many conditions have a number of their own, 16 unless it says less.
    """

    _calls = calls_of("lock", "lock", "lock_interruptibly", "timedlock", "trylock")
    _waits = calls_of("lock", "wait", "wait_interruptibly", "timedwait")
    _unlock = quick("aqs_lock_unlock")
    _one, _all = library.aqs_lock_signal, library.aqs_lock_signal_all
    _is_locked = library.aqs_lock_is_locked

    def __init__(self, *, conditions: int = CONDITIONS, **options: Any) -> None:
        refuse_unknown(type(self).__name__, options, (*OPTIONS, "conditions"))
        self._open(Opened("lock", (), options_of(conditions=conditions, **options)), conditions)

    def close(self) -> None:
        """Frees its memory. RuntimeError if another thread owns it. Later calls raise ValueError, and so do
        those that wait for it or on its conditions."""
        if not self._opened.is_closed:
            self._close()

    def _at_fork_reinit(self) -> None:
        self._opened.abandon()
        self._reinit()

    def __del__(self) -> None:
        if getattr(self, "_owner", None) and not self._opened.is_closed:
            self._free(self._opened.handle)

    def __repr__(self) -> str:
        state = "locked" if self._count else "unlocked"
        return f"<{state} {self._name()} object count={self._count} at {id(self):#x}>"


class Monitor(RLock):
    """The lock of an Event or a Barrier. As theirs in threading, it refuses its owner a second hold. But
    `with` gives it, so a signal handler may call what its thread is inside."""

    def acquire(
        self, blocking: bool = True, timeout: Optional[float] = -1, *, interruptible: bool = False
    ) -> bool:
        if self._is_owned():
            limit(blocking, timeout)
            if blocking:
                raise RuntimeError("the thread has this lock already")
            return False
        return super().acquire(blocking, timeout, interruptible=interruptible)

    def __enter__(self) -> bool:
        return super().acquire()


class ReadSide(Side):
    """The side of a read-write lock that many threads may have at a time."""

    _calls = calls_of("rwlock", "rdlock", "rdlock_interruptibly", "timedrdlock", "tryrdlock")
    _unlock = quick("aqs_rwlock_rdunlock")

    def __init__(self, opened: Opened) -> None:
        self._opened = opened
        self._holds: Dict[object, int] = {}

    def locked(self) -> bool:
        return bool(self._holds)

    def _recursion_count(self) -> int:
        return self._holds.get(threads.me, 0)

    def _set_count(self, count: int) -> None:
        if count:
            self._holds[threads.me] = count
        else:
            self._holds.pop(threads.me, None)

    def __repr__(self) -> str:
        return f"<read side of an aqs.RWLock, {len(self._holds)} readers, at {id(self):#x}>"


class WriteSide(Exclusive):
    """The side of a read-write lock that one thread has at a time. It has conditions."""

    _calls = calls_of("rwlock", "wrlock", "wrlock_interruptibly", "timedwrlock", "trywrlock")
    _waits = calls_of("rwlock", "wait", "wait_interruptibly", "timedwait")
    _unlock = quick("aqs_rwlock_wrunlock")
    _one, _all = library.aqs_rwlock_signal, library.aqs_rwlock_signal_all
    _is_locked = library.aqs_rwlock_is_write_locked

    def __init__(self, opened: Opened, conditions: int, read: ReadSide) -> None:
        self._read = read
        self._open(opened, conditions)

    def acquire(
        self, blocking: bool = True, timeout: Optional[float] = -1, *, interruptible: bool = False
    ) -> bool:
        """Takes it. RuntimeError if the thread only reads, and would wait for itself."""
        if blocking and not self._is_owned() and self._read._is_owned():
            raise RuntimeError("the thread reads, and would wait for itself to write")
        return super().acquire(blocking, timeout, interruptible=interruptible)

    def __repr__(self) -> str:
        return f"<write side of an aqs.RWLock, count={self._count}, at {id(self):#x}>"


class RWLock(Recorded):
    """A read-write lock: many threads read, or one writes. Both sides are reentrant: `with lock.read:`.

    A thread that writes may also read, and go on to read after it has released the write side. The write side
    has conditions: `lock.write.wait()`, `aqs.Condition(lock.write)`. The options are those of RLock.
    """

    def __init__(self, *, conditions: int = CONDITIONS, **options: Any) -> None:
        refuse_unknown(type(self).__name__, options, (*OPTIONS, "conditions"))
        self._opened = Opened("rwlock", (), options_of(conditions=conditions, **options))
        self.read = ReadSide(self._opened)
        self.write = WriteSide(self._opened, conditions, self.read)

    def close(self) -> None:
        """Frees its memory. RuntimeError if another thread holds it. Later calls raise ValueError, and so do
        those that wait for it or on its conditions."""
        if {*self.read._holds} - {threads.me}:
            raise RuntimeError("another thread holds the lock")
        opened = self._opened
        if opened.is_closed:
            return
        handle = opened.handle
        if not self.read._is_owned() or self.write._is_owned():
            self.read._free(handle)
            self.write._close()
            return
        opened.close()  # while this thread reads, so who gets the write side after this finds it closed
        self.read._free(handle)
        if self.write._calls.plain(handle) == OK:
            self.write._wake_all(handle)
            self.write._unlock(handle)

    def __del__(self) -> None:
        if hasattr(self, "write") and not self._opened.is_closed:
            for side in (self.read, self.write):
                side._free(self._opened.handle)

    def __repr__(self) -> str:
        state = "locked to write" if self.write._count else f"{len(self.read._holds)} readers"
        return f"<{self._name()} at {id(self):#x}: {state}>"
