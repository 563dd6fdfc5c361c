package aqs;

import java.util.concurrent.BrokenBarrierException;
import java.util.concurrent.TimeUnit;
import java.util.concurrent.TimeoutException;
import java.util.concurrent.locks.Condition;

/**
 * A point at which threads meet, again and again: {@link java.util.concurrent.CyclicBarrier} over an {@link
 * AqsLock} and a condition of it.
 */
public class AqsCyclicBarrier implements AutoCloseable {
    private final AqsLock lock;
    private final Condition met;
    private final int parties;
    private final Runnable action;
    private Round round = new Round();
    private int missing;

    /** Threads that meet once. All changes are made under the lock. */
    private static final class Round {
        boolean broken;
    }

    /**
     * A barrier for a number of threads.
     *
     * @param parties how many meet
     * @throws IllegalArgumentException if there are none
     */
    public AqsCyclicBarrier(int parties) {
        this(parties, null);
    }

    /**
     * A barrier with an action, which the last thread runs before the others go on.
     *
     * @param parties how many meet
     * @param action the action, or null
     * @throws IllegalArgumentException if there are none
     */
    public AqsCyclicBarrier(int parties, Runnable action) {
        this(parties, action, new AqsOptions().conditions(1));
    }

    /**
     * A barrier whose lock has options.
     *
     * @param parties how many meet
     * @param action the action, or null
     * @param how the options of the lock
     * @throws IllegalArgumentException if there are none
     */
    public AqsCyclicBarrier(int parties, Runnable action, AqsOptions how) {
        if (parties <= 0) {
            throw new IllegalArgumentException();
        }
        this.parties = parties;
        this.action = action;
        missing = parties;
        lock = new AqsLock(how);
        met = lock.newCondition();
    }

    /**
     * Waits until all have come.
     *
     * @return how many came after this thread
     * @throws InterruptedException if the thread is interrupted before or while it waits. That breaks the
     * barrier
     * @throws BrokenBarrierException if the barrier is broken, or reset meanwhile
     */
    public int await() throws InterruptedException, BrokenBarrierException {
        try {
            return meet(false, 0);
        } catch (TimeoutException never) {
            throw new AssertionError(never);
        }
    }

    /**
     * Waits until all have come, for at most this time.
     *
     * @param time how long
     * @param unit of what
     * @return how many came after this thread
     * @throws InterruptedException if the thread is interrupted before or while it waits. That breaks the
     * barrier
     * @throws BrokenBarrierException if the barrier is broken, or reset meanwhile
     * @throws TimeoutException if the time is up. That breaks the barrier
     */
    public int await(long time, TimeUnit unit)
            throws InterruptedException, BrokenBarrierException, TimeoutException {
        return meet(true, unit.toNanos(time));
    }

    /**
     * Returns how many threads meet.
     *
     * @return their number
     */
    public int getParties() {
        return parties;
    }

    /**
     * Returns how many threads wait now.
     *
     * @return their number
     */
    public int getNumberWaiting() {
        lock.lock();
        try {
            return parties - missing;
        } finally {
            lock.unlock();
        }
    }

    /**
     * Returns whether the barrier is broken: by an interrupt, a time that was up, or an action that threw.
     *
     * @return whether it is
     */
    public boolean isBroken() {
        lock.lock();
        try {
            return round.broken;
        } finally {
            lock.unlock();
        }
    }

    /** Breaks the barrier for those that wait, and makes it whole for those that come. */
    public void reset() {
        lock.lock();
        try {
            breakRound();
            round = new Round();
        } finally {
            lock.unlock();
        }
    }

    /**
     * Returns the history of the lock, as {@link AqsObject#history} does.
     *
     * @return the text
     */
    public String history() {
        return lock.history();
    }

    /** Frees the native memory, as {@link AqsObject#close} does. */
    @Override
    public void close() {
        lock.close();
    }

    private int meet(boolean timed, long nanoseconds)
            throws InterruptedException, BrokenBarrierException, TimeoutException {
        lock.lock();
        try {
            Round mine = round;
            int after = come();
            if (after == 0) {
                finish();
                return 0;
            }
            for (long left = nanoseconds;;) {
                left = waitIn(mine, timed, left);
                if (mine.broken) {
                    throw new BrokenBarrierException();
                }
                if (mine != round) {
                    return after;
                }
                if (timed && left <= 0) {
                    breakRound();
                    throw new TimeoutException();
                }
            }
        } finally {
            lock.unlock();
        }
    }

    /** Counts the calling thread, and returns how many are missing then. */
    private int come() throws InterruptedException, BrokenBarrierException {
        if (round.broken) {
            throw new BrokenBarrierException();
        }
        if (Thread.interrupted()) {
            breakRound();
            throw new InterruptedException();
        }
        return --missing;
    }

    /** Runs the action, and lets those that wait go. If the action throws, the barrier is broken. */
    private void finish() {
        boolean done = false;
        try {
            if (action != null) {
                action.run();
            }
            done = true;
        } finally {
            if (done) {
                round = new Round();
                missing = parties;
                met.signalAll();
            } else {
                breakRound();
            }
        }
    }

    /**
     * Waits once, and returns the time that is left. An interrupt that comes after the round ended stays set.
     * A thread that could not wait has not come.
     */
    private long waitIn(Round mine, boolean timed, long left) throws InterruptedException {
        try {
            if (!timed) {
                met.await();
            } else if (left > 0) {
                return met.awaitNanos(left);
            }
        } catch (InterruptedException interrupt) {
            if (mine == round && !mine.broken) {
                breakRound();
                throw interrupt;
            }
            Thread.currentThread().interrupt();
        } catch (AqsException | OutOfMemoryError refused) {
            if (mine == round && !mine.broken) {
                missing++;
            }
            throw refused;
        }
        return left;
    }

    private void breakRound() {
        round.broken = true;
        missing = parties;
        met.signalAll();
    }
}
