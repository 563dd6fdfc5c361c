"""libaqs.so: where it is found, what it declares, and its statuses as exceptions."""
import ctypes
import enum
import os
import pathlib

OK = 0
TIMED_OUT = 1
INTERRUPTED = 2
WOULD_BLOCK = 3
NOT_OWNER = 4
TOO_MANY_HOLDS = 5
TOO_MANY_PERMITS = 6
HOLDS_READ = 7
NO_SUCH_CONDITION = 8
HISTORY_FULL = 10
OUT_OF_MEMORY = 11
TOO_MANY_THREADS = 13
NO_SPACE = 14

# What each object may be opened with, by name.
OPTIONS = ("policy", "keep_history", "most_entries", "threads")

# What a thread has in the place of a number if memory lacks.
NO_THREAD = 2**32 - 1


class Policy(enum.IntEnum):
    """Which new calls queue up after those who wait: none, all but tries, or all."""

    NONFAIR = 0
    FAIR = 1
    STRICT = 2


class Options(ctypes.Structure):
    """How an object is opened: aqs_options_t."""

    _fields_ = [
        ("policy", ctypes.c_uint), ("when_full", ctypes.c_uint), ("history", ctypes.c_uint32),
        ("threads", ctypes.c_uint16), ("conditions", ctypes.c_uint8), ("heeds_handlers", ctypes.c_bool),
    ]


_N, _MS, _AT = ctypes.c_uint32, ctypes.c_int64, ctypes.c_uint8
_IS = ctypes.POINTER(ctypes.c_bool)
_CALLS = {
    "aqs_lock_lock": [], "aqs_lock_lock_interruptibly": [], "aqs_lock_timedlock": [_MS],
    "aqs_lock_trylock": [], "aqs_lock_unlock": [], "aqs_lock_wait": [_AT],
    "aqs_lock_wait_interruptibly": [_AT], "aqs_lock_timedwait": [_AT, _MS],
    "aqs_lock_signal": [_AT], "aqs_lock_signal_all": [_AT], "aqs_lock_is_locked": [_IS],
    "aqs_rwlock_rdlock": [], "aqs_rwlock_rdlock_interruptibly": [], "aqs_rwlock_timedrdlock": [_MS],
    "aqs_rwlock_tryrdlock": [], "aqs_rwlock_rdunlock": [],
    "aqs_rwlock_wrlock": [], "aqs_rwlock_wrlock_interruptibly": [], "aqs_rwlock_timedwrlock": [_MS],
    "aqs_rwlock_trywrlock": [], "aqs_rwlock_wrunlock": [],
    "aqs_rwlock_wait": [_AT], "aqs_rwlock_wait_interruptibly": [_AT], "aqs_rwlock_timedwait": [_AT, _MS],
    "aqs_rwlock_signal": [_AT], "aqs_rwlock_signal_all": [_AT], "aqs_rwlock_is_write_locked": [_IS],
    "aqs_sem_acquire": [_N], "aqs_sem_acquire_interruptibly": [_N], "aqs_sem_timedacquire": [_N, _MS],
    "aqs_sem_tryacquire": [_N], "aqs_sem_release": [_N], "aqs_sem_drain": [ctypes.POINTER(ctypes.c_uint32)],
    "aqs_sem_getvalue": [ctypes.POINTER(ctypes.c_int64)],
    "aqs_latch_count_down": [], "aqs_latch_await": [], "aqs_latch_await_interruptibly": [],
    "aqs_latch_timedawait": [_MS], "aqs_latch_getcount": [ctypes.POINTER(ctypes.c_uint32)],
}


def _places():
    """Where the library may be: the file of AQS_SO alone, or in this package, in a clone, or installed."""
    if "AQS_SO" in os.environ:
        return [os.environ["AQS_SO"]]
    here = pathlib.Path(__file__).resolve().parent
    return [str(here / "libaqs.so"), str(here.parent.parent / "c" / "out" / "libaqs.so"), "libaqs.so"]


def _load():
    tried = []
    for place in _places():
        try:
            return _declared(ctypes.CDLL(place))
        except OSError as error:
            tried.append(f"  {place}: {error}")
    found = "\n".join(tried)
    raise ImportError(
        f"libaqs.so can't be loaded:\n{found}\nRun 'make -C bindings/c' in a clone of the repository, or set "
        "AQS_SO to the library's file."
    )


def _declared(library):
    for kind, more in (("lock", []), ("rwlock", []), ("sem", [ctypes.c_int32]), ("latch", [ctypes.c_uint32])):
        place, options = ctypes.POINTER(ctypes.c_void_p), ctypes.POINTER(Options)
        _declare(library, f"aqs_{kind}_open", [place, *more, options])
        _declare(library, f"aqs_{kind}_close", [ctypes.c_void_p], None)
        _declare(library, f"aqs_{kind}_object", [ctypes.c_void_p], ctypes.c_void_p)
    for name, more in _CALLS.items():
        _declare(library, name, [ctypes.c_void_p, *more])
    for name in ("aqs_object_queue_length", "aqs_object_waiters"):
        _declare(library, name, [ctypes.c_void_p, ctypes.POINTER(ctypes.c_uint32)])
    _declare(library, "aqs_object_policy", [ctypes.c_void_p], ctypes.c_uint)
    length = ctypes.POINTER(ctypes.c_size_t)
    for name in ("aqs_history_text", "aqs_history_names"):
        _declare(library, name, [ctypes.c_void_p, ctypes.c_char_p, ctypes.c_size_t, length])
    _declare(library, "aqs_history_trim", [ctypes.c_void_p, ctypes.POINTER(ctypes.c_uint64)])
    _declare(library, "aqs_status_name", [ctypes.c_int], ctypes.c_char_p)
    _declare(library, "aqs_thread_self", [], ctypes.c_uint32)
    _declare(library, "aqs_thread_interrupt", [ctypes.c_uint32])
    _declare(library, "aqs_thread_interrupted", [], ctypes.c_bool)
    return library


def _declare(library, name, arguments, result=ctypes.c_int):
    function = getattr(library, name)
    function.argtypes, function.restype = arguments, result


library = _load()


def quick(name):
    """A call that returns a status, without ctypes' look at each argument, which costs as much as the call: the first
    is a handle, and the others are ctypes' own or numbers below 2**31."""
    return library[name]


class Error(Exception):
    """A call that couldn't be made. Nothing has changed by it. `status` is its number in aqs.h."""

    status = -1


class Interrupted(Error):
    """The thread was interrupted, before the call or while it waited."""

    status = INTERRUPTED


class NotOwner(Error, RuntimeError):
    """The thread doesn't hold what it releases, or doesn't own the lock."""

    status = NOT_OWNER


class TooManyHolds(Error, OverflowError):
    """The lock is held as often as it may be."""

    status = TOO_MANY_HOLDS


class TooManyPermits(Error, OverflowError):
    """A semaphore would have more than 2147483647 free permits."""

    status = TOO_MANY_PERMITS


class HoldsRead(Error, RuntimeError):
    """The thread waits on a condition while it also holds the lock to read."""

    status = HOLDS_READ


class NoSuchCondition(Error, ValueError):
    """The lock was opened with fewer conditions."""

    status = NO_SUCH_CONDITION


class HistoryFull(Error, RuntimeError):
    """The history is full and kept, or too small for all holds and waiters."""

    status = HISTORY_FULL


class OutOfMemory(Error, MemoryError):
    """The library got no memory."""

    status = OUT_OF_MEMORY


class TooManyThreads(Error, RuntimeError):
    """As many threads as the object was opened for hold it or wait for it."""

    status = TOO_MANY_THREADS


_BY_STATUS = {
    it.status: it
    for it in (
        Interrupted, NotOwner, TooManyHolds, TooManyPermits, HoldsRead, NoSuchCondition, HistoryFull,
        OutOfMemory, TooManyThreads,
    )
}


def error_of(status, words=""):
    """The exception of a status, whose text begins with the status's name."""
    kind = _BY_STATUS.get(status, Error)
    name = library.aqs_status_name(status).decode()
    error = kind(f"{name}: {words or (kind.__doc__ if kind is not Error else 'the call was refused')}")
    error.status = status
    return error


def check(status):
    if status != OK:
        raise error_of(status)
