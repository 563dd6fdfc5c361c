"""Calls that wait: what their arguments mean, and how Ctrl-C ends them.

Python runs signal handlers in the main thread, between two steps of its interpreter, never inside a call of
C. So the main thread waits in slices. A call's status is noted in the same step as the call, so an exception
that comes right after it finds whether the call has taken something, which is then given back.
"""
import ctypes
import math
import operator
import os
import threading
import time
from itertools import starmap
from threading import get_ident
from typing import Any, List, NamedTuple, Optional

from . import _library
from ._library import INTERRUPTED, OK, TIMED_OUT, library, quick

TIMEOUT_MAX = threading.TIMEOUT_MAX
# The longest time that the main thread waits in C at a time.
SLICE = ctypes.c_int64(100)
_MOST_MILLISECONDS = 2**32 - 1


def number(value: Any, least: int, most: int, name: str) -> int:
    """The value as a number of this range. C would wrap another one."""
    try:
        value = operator.index(value)
    except TypeError:
        raise TypeError(f"{name} must be a whole number, not {type(value).__name__}") from None
    if not least <= value <= most:
        raise ValueError(f"{name} must be {least} to {most}, not {value}")
    return value


def moment(timeout: Optional[float]) -> Optional[float]:
    """The moment this many seconds from now. None: never."""
    if timeout is None:
        return None
    try:
        is_number = not math.isnan(timeout)
    except TypeError:
        raise TypeError(f"timeout must be a number of seconds, not {type(timeout).__name__}") from None
    if not is_number:
        raise ValueError("timeout must be a number of seconds, not nan")
    if timeout > TIMEOUT_MAX:
        raise OverflowError("timeout value is too large")
    return time.monotonic() + timeout


def limit(blocking: bool, timeout: Optional[float]) -> Optional[float]:
    """Until when an acquire waits. None: as long as it takes."""
    if timeout is None or timeout == -1:
        return None
    if not blocking:
        raise ValueError("can't specify a timeout for a non-blocking call")
    until = moment(timeout)
    if timeout < 0:
        raise ValueError("timeout value must be a non-negative number")
    return until


class Calls(NamedTuple):
    """The calls of the library that take one thing: without end, with interrupts, with a time, and at
    once."""

    plain: Any
    interruptibly: Any
    timed: Any
    trying: Any = None


def calls_of(kind: str, *names: str) -> Calls:
    return Calls(*(quick(f"aqs_{kind}_{name}") for name in names))


def run(ran: List[Any], function: Any, arguments: Any) -> Any:
    """Makes a call, and appends its status to `ran`: no signal handler runs between the two."""
    ran.extend(starmap(function, (arguments,)))
    return ran[-1]


def run_taking(ran: List[Any], function: Any, take: Any) -> Any:
    """The same with the arguments that `take` returns: no signal handler runs between the two calls either."""
    ran.extend(starmap(function, starmap(take, ((),))))
    return ran[-1]


_main = 0


def _find_main() -> None:
    global _main
    _main = threading.main_thread().ident or 0


_find_main()
# After a fork it is the thread that forked.
os.register_at_fork(after_in_child=_find_main)


def turn(ran: List[Any], calls: Calls, arguments: Any, until: Optional[float], interruptible: bool) -> int:
    """One call that waits: all the time in most threads, a slice of it in the main thread."""
    ran.clear()
    is_main = get_ident() == _main
    if until is not None:
        left = math.ceil(max(0, until - time.monotonic()) * 1000)
        most = SLICE.value if is_main else _MOST_MILLISECONDS
        return run(ran, calls.timed, (*arguments, ctypes.c_int64(min(left, most))))
    if is_main:
        return run(ran, calls.timed, (*arguments, SLICE))
    return run(ran, calls.interruptibly if interruptible else calls.plain, arguments)


def is_up(until: Optional[float]) -> bool:
    return until is not None and time.monotonic() >= until


def is_untold(ran: List[int], error: BaseException) -> bool:
    """Whether an interrupt ended the last slice of a call, and the error that came right after it says nothing of
    that."""
    return ran[-1:] == [INTERRUPTED] and not isinstance(error, _library.Interrupted)


def interrupt_again() -> None:
    """An interrupt that ended a slice of a call, which no interrupt may end, is pending again."""
    library.aqs_thread_interrupt(library.aqs_thread_self())


def wait(ran: List[int], calls: Calls, arguments: Any, until: Optional[float], interruptible: bool) -> int:
    """Turns until the call has what it asks for, its time is up or an interrupt may end it. Returns the
    status, which is the last of `ran`."""
    is_due = False
    try:
        while True:
            status = turn(ran, calls, arguments, until, interruptible)
            if status == OK:
                return status
            if status == INTERRUPTED and not interruptible:
                is_due = True
            elif status != TIMED_OUT or is_up(until):
                return status
    except BaseException as error:
        is_due = is_due or is_untold(ran, error)
        raise
    finally:
        if is_due:
            interrupt_again()


def current_thread() -> int:
    """The calling thread's number, for `interrupt`."""
    thread = library.aqs_thread_self()
    if thread == _library.NO_THREAD:
        raise _library.error_of(_library.OUT_OF_MEMORY)
    return thread


def interrupt(thread: int) -> None:
    """Interrupts a thread: its next call with interruptible=True, or the one in which it waits, raises
    Interrupted."""
    thread = number(thread, 0, _library.NO_THREAD, "a thread's number")
    if library.aqs_thread_interrupt(thread) != _library.OK:
        raise ValueError(f"no thread has had the number {thread}")


def interrupted() -> bool:
    """Whether the calling thread has a pending interrupt. It is cleared."""
    return library.aqs_thread_interrupted()


class _Threads(threading.local):
    """Who the calling thread is: `threads.me`. No other thread ever is the same, unlike its ident after its
    end."""

    def __init__(self) -> None:
        self.me = object()


threads = _Threads()
