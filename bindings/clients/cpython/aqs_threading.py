"""Runs CPython's own tests with the classes of this library in the module `threading`:

    python3 aqs_threading.py WORDS, as python3 -m test WORDS

The tests, and the modules that they test (queue, concurrent.futures, threading's own threads), find them there.
"""
import sys
import threading

import aqs

CLASSES = ("Lock", "RLock", "Condition", "Semaphore", "BoundedSemaphore", "Event", "Barrier")


def replace():
    for name in CLASSES:
        setattr(threading, name, getattr(aqs, name))
    # The tests of both of CPython's reentrant locks ask for them by these names.
    threading._PyRLock = threading._CRLock = aqs.RLock


if __name__ == "__main__":
    replace()
    from test.libregrtest.main import main

    sys.exit(main())
