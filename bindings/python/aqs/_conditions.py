"""Conditions: any number for a lock, over the few that a lock of the library has.

Each thread that waits has a ticket, and a notify marks tickets. The library's own queue of a condition has the
same order, so its signals wake the threads whose tickets are marked. A thread that wakes without a mark waits
again, after the others: the main thread after each slice, and others if conditions share a number of the lock.
So no notify is lost and no wait ends without one.
"""
import operator
from collections import deque
from typing import Any, Callable, Deque, List, Optional, TypeVar

from ._library import INTERRUPTED, OK, TIMED_OUT, NotOwner, error_of
from ._waiting import interrupt_again, is_untold, is_up, moment

T = TypeVar("T")


class Ticket:
    """One wait of one thread."""

    __slots__ = ("is_marked",)

    def __init__(self) -> None:
        self.is_marked = False


class Numbers:
    """How many queues use each condition number of a lock. Only the owner of the lock uses it."""

    def __init__(self, count: int) -> None:
        self.users = [0] * count

    def take(self, wanted: Optional[int]) -> int:
        number = self.users.index(min(self.users)) if wanted is None else wanted
        self.users[number] += 1
        return number

    def give_back(self, number: int) -> None:
        self.users[number] -= 1

    def is_shared(self, number: int) -> bool:
        return self.users[number] > 1


class Queue:
    """Who waits on a condition of a lock. Only the owner of the lock uses it. It has a number of the lock as
    long as a thread is inside."""

    def __init__(self, wanted: Optional[int] = None) -> None:
        self._wanted, self._number = wanted, 0
        self._inside = 0
        self._tickets: Deque[Ticket] = deque()

    def __len__(self) -> int:
        return len(self._tickets)

    def wait(self, lock: Any, until: Optional[float], interruptible: bool) -> bool:
        """Whether it was notified before its time was up."""
        ticket = Ticket()
        self._enter(lock, ticket)
        try:
            return self._sleep(lock, ticket, until, interruptible)
        except BaseException:
            if ticket.is_marked:
                self.notify(lock, 1)
            raise
        finally:
            self._leave(lock, ticket)

    def _enter(self, lock: Any, ticket: Ticket) -> None:
        if self._inside == 0:
            self._number = lock._numbers.take(self._wanted)
        self._inside += 1
        self._tickets.append(ticket)

    def _leave(self, lock: Any, ticket: Ticket) -> None:
        self._drop(ticket)
        self._inside -= 1
        if self._inside == 0:
            lock._numbers.give_back(self._number)

    def _drop(self, ticket: Ticket) -> None:
        try:
            self._tickets.remove(ticket)
        except ValueError:
            pass

    def _sleep(self, lock: Any, ticket: Ticket, until: Optional[float], interruptible: bool) -> bool:
        ran: List[int] = []
        is_due = False
        try:
            while True:
                status = lock._await(ran, self._number, until, interruptible)
                if status not in (OK, TIMED_OUT, INTERRUPTED):
                    raise error_of(status)
                if status == INTERRUPTED and (ticket.is_marked or not interruptible):
                    is_due = True
                if ticket.is_marked:
                    return True
                if status == INTERRUPTED and interruptible:
                    raise error_of(status)
                if is_up(until):
                    return False
                # A signal handler may notify between the two, so the ticket is never missing.
                self._tickets.append(ticket)
                self._drop(ticket)
        except BaseException as error:
            is_due = is_due or is_untold(ran, error)
            raise
        finally:
            if is_due:
                interrupt_again()

    def notify(self, lock: Any, n: int) -> None:
        """Wakes the n that have waited longest, or all."""
        count = min(n, len(self._tickets))
        if count <= 0:
            return
        wakes_all = count == len(self._tickets) or lock._numbers.is_shared(self._number)
        if wakes_all:
            lock._signal_all(self._number)
        for _ in range(count):
            if not wakes_all:
                lock._signal(self._number)
            self._tickets.popleft().is_marked = True


class ForeignQueue:
    """The queue of a condition whose lock isn't the library's own: its threads wait on a lock of its own,
    beside."""

    def __init__(self, monitor: Any) -> None:
        self._monitor, self._queue = monitor, Queue()

    def __len__(self) -> int:
        return len(self._queue)

    def wait(self, condition: Any, until: Optional[float], interruptible: bool) -> bool:
        self._monitor._acquire_restore(1)
        try:
            state = condition._release_save()
        except BaseException:
            self._monitor.release()
            raise
        try:
            return self._queue.wait(self._monitor, until, interruptible)
        finally:
            self._monitor.release()
            condition._acquire_restore(state)

    def notify(self, _condition: Any, n: int) -> None:
        with self._monitor:
            self._queue.notify(self._monitor, n)


class Waitable:
    """The calls of threading.Condition, of what has queues."""

    def _queue_of(self, condition: int) -> Any:
        raise NotImplementedError

    def _is_owned(self) -> bool:
        raise NotImplementedError

    def _what_queues_need(self) -> Any:
        """What the calls of a queue are given: the lock of the library, or a condition over another lock."""
        return self

    def _wait(self, queue: Any, until: Optional[float], interruptible: bool) -> bool:
        if not self._is_owned():
            raise NotOwner("cannot wait on un-acquired lock")
        return queue.wait(self._what_queues_need(), until, interruptible)

    def _wait_for(
        self, queue: Any, predicate: Callable[[], T], timeout: Optional[float], interruptible: bool
    ) -> T:
        until = moment(timeout)
        result = predicate()
        while not result and not is_up(until):
            self._wait(queue, until, interruptible)
            result = predicate()
        return result

    def _notify(self, queue: Any, n: Optional[int]) -> None:
        if not self._is_owned():
            raise NotOwner("cannot notify on un-acquired lock")
        queue.notify(self._what_queues_need(), len(queue) if n is None else operator.index(n))


class Condition(Waitable):
    """threading.Condition over the library. Any number of them may belong to one lock.

    A lock of the library has `conditions` numbers, at most 16. A condition has one of them while a thread waits
    on it. If threads wait on more conditions than that at once, some share a number: a notify of one of those
    wakes all who wait by that number, and those who were not meant wait again. Over another lock, as
    threading.Lock, its threads wait beside that lock.
    """

    def __init__(self, lock: Any = None) -> None:
        from ._locks import Exclusive, RLock

        self._lock = RLock() if lock is None else lock
        self._is_own = isinstance(self._lock, Exclusive)
        self._queue: Any = Queue() if self._is_own else ForeignQueue(RLock())

    def acquire(self, *arguments: Any, **named: Any) -> bool:
        return self._lock.acquire(*arguments, **named)

    def release(self) -> None:
        self._lock.release()

    def __enter__(self) -> Any:
        return self._lock.__enter__()

    def __exit__(self, *error: Any) -> Any:
        return self._lock.__exit__(*error)

    def wait(self, timeout: Optional[float] = None, *, interruptible: bool = False) -> bool:
        """Gives the lock up, waits until notified, and has the lock again. False if the time was up
        before."""
        return self._wait(self._queue, moment(timeout), interruptible)

    def wait_for(
        self, predicate: Callable[[], T], timeout: Optional[float] = None, *, interruptible: bool = False
    ) -> T:
        """Waits until the predicate holds, or the time is up. Returns what the predicate returned last."""
        return self._wait_for(self._queue, predicate, timeout, interruptible)

    def notify(self, n: int = 1) -> None:
        """Wakes the n that have waited longest. Only the owner may call it."""
        self._notify(self._queue, n)

    def notify_all(self) -> None:
        """Wakes all who wait. Only the owner may call it."""
        self._notify(self._queue, None)

    notifyAll = notify_all

    def _what_queues_need(self) -> Any:
        return self._lock if self._is_own else self

    def _is_owned(self) -> bool:
        asks = getattr(self._lock, "_is_owned", None)
        if asks:
            return asks()
        if self._lock.acquire(False):
            self._lock.release()
            return False
        return True

    def _recursion_count(self) -> int:
        return self._lock._recursion_count()

    def _release_save(self) -> Any:
        saves = getattr(self._lock, "_release_save", None)
        return saves() if saves else self._lock.release()

    def _acquire_restore(self, state: Any) -> None:
        restores = getattr(self._lock, "_acquire_restore", None)
        if restores:
            restores(state)
        else:
            self._lock.acquire()

    def _at_fork_reinit(self) -> None:
        self._lock._at_fork_reinit()
        self._queue = Queue() if self._is_own else ForeignQueue(type(self._queue._monitor)())

    def __repr__(self) -> str:
        return f"<{type(self).__name__}({self._lock!r}, {len(self._queue)})>"
