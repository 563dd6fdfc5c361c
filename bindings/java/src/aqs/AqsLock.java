package aqs;

import java.util.concurrent.TimeUnit;
import java.util.concurrent.locks.Condition;
import java.util.concurrent.locks.Lock;

/** A reentrant lock with conditions: {@link java.util.concurrent.locks.ReentrantLock} over the library. */
public class AqsLock extends AqsObject implements Lock {
    private final Exclusive lock = new Exclusive(this, false);
    private final Conditions conditions;

    /** A lock that isn't fair. */
    public AqsLock() {
        this(new AqsOptions());
    }

    /**
     * A lock with options.
     *
     * @param how the options
     */
    public AqsLock(AqsOptions how) {
        super(Native.LOCK, 0, how);
        conditions = new Conditions(lock, how.mostConditions());
    }

    @Override
    public void lock() {
        lock.lock();
    }

    @Override
    public void lockInterruptibly() throws InterruptedException {
        lock.lockInterruptibly();
    }

    /** Acquires the lock if no other thread owns it, before those that wait, unless the lock is strict. */
    @Override
    public boolean tryLock() {
        return lock.tryLock();
    }

    @Override
    public boolean tryLock(long time, TimeUnit unit) throws InterruptedException {
        return lock.tryLock(time, unit);
    }

    @Override
    public void unlock() {
        lock.unlock();
    }

    /**
     * Returns a new condition. A lock may have any number of them. While at most as many as {@link
     * AqsOptions#conditions} have waiters, 16 by default, no wait ends without a signal of its condition, an
     * interrupt or its time. Beyond that, conditions share: then a signal wakes all waiters of those that
     * share.
     */
    @Override
    public Condition newCondition() {
        return conditions.make();
    }

    /**
     * Returns how often the calling thread has to unlock.
     *
     * @return its holds
     */
    public int getHoldCount() {
        return lock.holds();
    }

    /**
     * Returns whether the calling thread owns the lock.
     *
     * @return whether it has a hold
     */
    public boolean isHeldByCurrentThread() {
        return lock.holds() > 0;
    }

    /**
     * Returns whether any thread owns the lock. Another thread may change that at any time. It records
     * nothing.
     *
     * @return whether one does
     */
    public boolean isLocked() {
        return locked();
    }

    /**
     * Returns whether threads wait on a condition of this lock. A thread whose wait was interrupted, or whose
     * time is up, may count until it has the lock again.
     *
     * @param condition the condition
     * @return whether there may be some
     * @throws IllegalMonitorStateException if the calling thread doesn't own the lock
     * @throws IllegalArgumentException if the condition isn't of this lock
     */
    public boolean hasWaiters(Condition condition) {
        return conditions.own(condition).waiting() > 0;
    }

    /**
     * Returns how many threads wait on a condition of this lock, or more, as {@link #hasWaiters} says.
     *
     * @param condition the condition
     * @return their number at most
     * @throws IllegalMonitorStateException if the calling thread doesn't own the lock
     * @throws IllegalArgumentException if the condition isn't of this lock
     */
    public int getWaitQueueLength(Condition condition) {
        return conditions.own(condition).waiting();
    }

    @Override
    String state() {
        return lock.state();
    }
}
