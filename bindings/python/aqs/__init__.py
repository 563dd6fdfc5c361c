"""The synchronisers of java.util.concurrent, whose decisions are proved, with the names and calls of
`threading`.

    import aqs

    lock = aqs.RLock()
    not_empty = aqs.Condition(lock)
    with lock:
        not_empty.wait_for(lambda: items, timeout=5)

    table_lock = aqs.RWLock()
    with table_lock.read:
        ...

Calls go to libaqs.so by ctypes, which lets other threads run meanwhile. `make -C bindings/c` builds it;
AQS_SO names another file. Times are in seconds. What can't be done raises: Error and its kinds, which are
also the exceptions that `threading` raises there.
"""
from ._conditions import Condition
from ._gates import Barrier, BrokenBarrierError, CountDownLatch, Event
from ._library import (
    Error, HistoryFull, HoldsRead, Interrupted, NoSuchCondition, NotOwner, OutOfMemory, Policy, TooManyHolds,
    TooManyPermits, TooManyThreads,
)
from ._locks import RLock, RWLock
from ._semaphores import BoundedSemaphore, Lock, Semaphore
from ._waiting import TIMEOUT_MAX, current_thread, interrupt, interrupted

__version__ = "0.1.0"

Latch = CountDownLatch

__all__ = [
    "Barrier", "BoundedSemaphore", "BrokenBarrierError", "Condition", "CountDownLatch", "Error", "Event",
    "HistoryFull", "HoldsRead", "Interrupted", "Latch", "Lock", "NoSuchCondition", "NotOwner", "OutOfMemory",
    "Policy", "RLock", "RWLock", "Semaphore", "TIMEOUT_MAX", "TooManyHolds", "TooManyPermits",
    "TooManyThreads", "current_thread", "interrupt", "interrupted",
]

for _it in list(globals().values()):
    if getattr(_it, "__module__", "").startswith("aqs._"):
        _it.__module__ = "aqs"
del _it
