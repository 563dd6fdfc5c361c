"""Microseconds of a pair of calls, acquire and release, beside the same of threading, in one run: python3 bench.py.

The best of 50 rounds of 1,000 pairs that no other thread disturbs, in the main thread and in another.
"""
import threading
import time

import aqs

PAIRS, ROUNDS = 1000, 50


def pair(lock):
    best = float("inf")
    for _ in range(ROUNDS):
        begin = time.perf_counter()
        for _ in range(PAIRS):
            lock.acquire()
            lock.release()
        best = min(best, time.perf_counter() - begin)
    return best / PAIRS * 1e6


def in_other(call):
    found = []
    thread = threading.Thread(target=lambda: found.append(call()))
    thread.start()
    thread.join()
    return found[0]


def main():
    print("us a pair          aqs, main   other   threading, main   other")
    for name in ("Lock", "RLock", "Semaphore", "BoundedSemaphore"):
        found = []
        for package in (aqs, threading):
            lock = getattr(package, name)()
            found += [pair(lock), in_other(lambda: pair(lock))]
        print("{:18} {:9.2f} {:7.2f} {:17.2f} {:7.2f}".format(name, *found))


if __name__ == "__main__":
    main()
