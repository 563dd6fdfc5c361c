package aqs;

import java.util.concurrent.TimeUnit;
import java.util.concurrent.locks.Condition;
import java.util.concurrent.locks.Lock;
import java.util.concurrent.locks.ReadWriteLock;

/**
 * A read-write lock: {@link java.util.concurrent.locks.ReentrantReadWriteLock} over the library. A thread
 * that only reads must not ask to write: it would wait for itself.
 */
public class AqsReadWriteLock extends AqsObject implements ReadWriteLock {
    private final Exclusive writers = new Exclusive(this, true);
    private final Conditions conditions;
    private final ThreadLocal<int[]> readHolds = ThreadLocal.withInitial(() -> new int[1]);
    private final ReadLock reads = new ReadLock(this);
    private final WriteLock writes = new WriteLock(this);

    /** A lock that isn't fair. */
    public AqsReadWriteLock() {
        this(new AqsOptions());
    }

    /**
     * A lock with options.
     *
     * @param how the options
     */
    public AqsReadWriteLock(AqsOptions how) {
        super(Native.READ_WRITE, 0, how);
        conditions = new Conditions(writers, how.mostConditions());
    }

    @Override
    public ReadLock readLock() {
        return reads;
    }

    @Override
    public WriteLock writeLock() {
        return writes;
    }

    /**
     * Returns whether any thread owns the write side. Another thread may change that at any time. It records
     * nothing.
     *
     * @return whether one does
     */
    public boolean isWriteLocked() {
        return locked();
    }

    /**
     * Returns whether the calling thread owns the write side.
     *
     * @return whether it has a hold to write
     */
    public boolean isWriteLockedByCurrentThread() {
        return writers.holds() > 0;
    }

    /**
     * Returns how often the calling thread has to unlock the write side.
     *
     * @return its holds to write
     */
    public int getWriteHoldCount() {
        return writers.holds();
    }

    /**
     * Returns how often the calling thread has to unlock the read side.
     *
     * @return its holds to read
     */
    public int getReadHoldCount() {
        Callers.check();
        return readHolds.get()[0];
    }

    /**
     * Returns whether threads wait on a condition of the write side, as {@link AqsLock#hasWaiters} does.
     *
     * @param condition the condition
     * @return whether there may be some
     * @throws IllegalMonitorStateException if the calling thread doesn't own the write side
     * @throws IllegalArgumentException if the condition isn't of this lock
     */
    public boolean hasWaiters(Condition condition) {
        return conditions.own(condition).waiting() > 0;
    }

    /**
     * Returns how many threads wait on a condition of the write side, as {@link AqsLock#getWaitQueueLength}
     * does.
     *
     * @param condition the condition
     * @return their number at most
     * @throws IllegalMonitorStateException if the calling thread doesn't own the write side
     * @throws IllegalArgumentException if the condition isn't of this lock
     */
    public int getWaitQueueLength(Condition condition) {
        return conditions.own(condition).waiting();
    }

    @Override
    String state() {
        return "[Write locks = " + writers.holdsOfAny() + "]";
    }

    /** The read side, which many threads may have at a time. */
    public static class ReadLock implements Lock {
        private final AqsReadWriteLock of;

        /**
         * The read side of a lock.
         *
         * @param of the lock
         */
        protected ReadLock(AqsReadWriteLock of) {
            this.of = of;
        }

        @Override
        public void lock() {
            AqsObject.must(Native.readLock(of, of.handle()));
            of.readHolds.get()[0]++;
        }

        @Override
        public void lockInterruptibly() throws InterruptedException {
            of.interruptibly(Native.WAITS_TO_READ, 0);
            of.readHolds.get()[0]++;
        }

        /** Acquires the side if no other thread writes, before those that wait, unless the lock is strict. */
        @Override
        public boolean tryLock() {
            return counted(AqsObject.tried(Native.tryReadLock(of, of.handle())));
        }

        @Override
        public boolean tryLock(long time, TimeUnit unit) throws InterruptedException {
            return counted(of.timed(Native.WAITS_TO_READ, 0, time, unit));
        }

        @Override
        public void unlock() {
            AqsObject.must(Native.readUnlock(of, of.handle()));
            of.readHolds.get()[0]--;
        }

        /** Throws: a read side has no conditions. */
        @Override
        public Condition newCondition() {
            throw new UnsupportedOperationException("aqs: a read side has no conditions");
        }

        private boolean counted(boolean got) {
            if (got) {
                of.readHolds.get()[0]++;
            }
            return got;
        }
    }

    /** The write side, which one thread may have at a time. */
    public static class WriteLock implements Lock {
        private final AqsReadWriteLock of;

        /**
         * The write side of a lock.
         *
         * @param of the lock
         */
        protected WriteLock(AqsReadWriteLock of) {
            this.of = of;
        }

        @Override
        public void lock() {
            of.writers.lock();
        }

        @Override
        public void lockInterruptibly() throws InterruptedException {
            of.writers.lockInterruptibly();
        }

        /**
         * Acquires the side if no other thread reads or writes, before those that wait, unless the lock is
         * strict.
         */
        @Override
        public boolean tryLock() {
            return of.writers.tryLock();
        }

        @Override
        public boolean tryLock(long time, TimeUnit unit) throws InterruptedException {
            return of.writers.tryLock(time, unit);
        }

        @Override
        public void unlock() {
            of.writers.unlock();
        }

        /**
         * Returns a new condition, as {@link AqsLock#newCondition} does. A wait throws
         * IllegalMonitorStateException if the thread also reads, where the JDK's class would wait and keep
         * its read holds.
         */
        @Override
        public Condition newCondition() {
            return of.conditions.make();
        }

        /**
         * Returns whether the calling thread owns the write side.
         *
         * @return whether it has a hold to write
         */
        public boolean isHeldByCurrentThread() {
            return of.writers.holds() > 0;
        }

        /**
         * Returns how often the calling thread has to unlock the write side.
         *
         * @return its holds to write
         */
        public int getHoldCount() {
            return of.writers.holds();
        }

        /** As that of the JDK's class. */
        @Override
        public String toString() {
            return super.toString() + of.writers.state();
        }
    }
}
