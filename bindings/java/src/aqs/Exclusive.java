package aqs;

import java.util.concurrent.TimeUnit;
import java.util.concurrent.atomic.AtomicReferenceFieldUpdater;

/** Who owns a lock, or the write side of one, and how often. Only the owner changes it. */
final class Exclusive {
    private static final AtomicReferenceFieldUpdater<Exclusive, Thread> OWNER =
        AtomicReferenceFieldUpdater.newUpdater(Exclusive.class, Thread.class, "owner");

    final AqsObject object;
    final boolean ofWriters;
    private volatile Thread owner;
    private int holds;

    Exclusive(AqsObject object, boolean ofWriters) {
        this.object = object;
        this.ofWriters = ofWriters;
    }

    void lock() {
        long at = object.handle();
        AqsObject.must(ofWriters ? Native.writeLock(object, at) : Native.lock(object, at));
        acquired();
    }

    void lockInterruptibly() throws InterruptedException {
        object.interruptibly(ofWriters ? Native.WAITS_TO_WRITE : Native.WAITS_TO_LOCK, 0);
        acquired();
    }

    boolean tryLock() {
        long at = object.handle();
        boolean got =
            AqsObject.tried(ofWriters ? Native.tryWriteLock(object, at) : Native.tryLock(object, at));
        if (got) {
            acquired();
        }
        return got;
    }

    boolean tryLock(long time, TimeUnit unit) throws InterruptedException {
        boolean got =
            object.timed(ofWriters ? Native.WAITS_TO_WRITE : Native.WAITS_TO_LOCK, 0, time, unit);
        if (got) {
            acquired();
        }
        return got;
    }

    /** The holds are lowered first: as soon as the library has the lock free, another thread changes them. */
    void unlock() {
        long at = object.handle();
        boolean mine = isMine();
        int before = holds;
        if (mine) {
            have(before - 1);
        }
        int status = ofWriters ? Native.writeUnlock(object, at) : Native.unlock(object, at);
        if (mine && status != Native.OK) {
            have(before);
        }
        AqsObject.must(status);
    }

    boolean isMine() {
        return owner == Thread.currentThread();
    }

    void mustBeMine() {
        Callers.check();
        if (!isMine()) {
            throw new IllegalMonitorStateException();
        }
    }

    int holds() {
        Callers.check();
        return isMine() ? holds : 0;
    }

    /** For people who read it: another thread may see an older number. */
    int holdsOfAny() {
        return owner == null ? 0 : holds;
    }

    /** Gives all holds up, before a wait on a condition, and returns how many. */
    int giveUp() {
        int before = holds;
        have(0);
        return before;
    }

    /** Notes how many holds the calling thread has. */
    void have(int number) {
        holds = number;
        OWNER.lazySet(this, number == 0 ? null : Thread.currentThread());
    }

    String state() {
        Thread thread = owner;
        return thread == null ? "[Unlocked]" : "[Locked by thread " + thread.getName() + "]";
    }

    private void acquired() {
        have(isMine() ? holds + 1 : 1);
    }
}
