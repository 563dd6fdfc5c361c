"""CPython's own tests of threading's locks, as they are, over the classes of this package.

They are those of the Python that runs this: test/lock_tests.py of its standard library, which a system may
have in a package of its own (Debian: libpython3-testsuite).
"""
import unittest

import aqs

try:
    from test import lock_tests
except ImportError as error:
    raise unittest.SkipTest(f"this Python has no test.lock_tests: {error}")


class LockTests(lock_tests.LockTests):
    locktype = staticmethod(aqs.Lock)


class RLockTests(lock_tests.RLockTests):
    locktype = staticmethod(aqs.RLock)


class ConditionAsRLockTests(lock_tests.RLockTests):
    locktype = staticmethod(aqs.Condition)


class ConditionTests(lock_tests.ConditionTests):
    condtype = staticmethod(aqs.Condition)


class SemaphoreTests(lock_tests.SemaphoreTests):
    semtype = staticmethod(aqs.Semaphore)


class BoundedSemaphoreTests(lock_tests.BoundedSemaphoreTests):
    semtype = staticmethod(aqs.BoundedSemaphore)


class EventTests(lock_tests.EventTests):
    eventtype = staticmethod(aqs.Event)


class BarrierTests(lock_tests.BarrierTests):
    barriertype = staticmethod(aqs.Barrier)


if __name__ == "__main__":
    unittest.main()
