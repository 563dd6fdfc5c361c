package aqs;

import java.util.concurrent.TimeUnit;

/** Permits that threads take and give: {@link java.util.concurrent.Semaphore} over the library. */
public class AqsSemaphore extends AqsObject {
    /**
     * A semaphore that isn't fair.
     *
     * @param permits how many are free. Below 0, as many releases come first
     */
    public AqsSemaphore(int permits) {
        this(permits, new AqsOptions());
    }

    /**
     * A semaphore with options.
     *
     * @param permits how many are free. Below 0, as many releases come first
     * @param how the options
     */
    public AqsSemaphore(int permits, AqsOptions how) {
        super(Native.SEMAPHORE, permits, how);
    }

    /**
     * Takes a permit, and waits until one is free.
     *
     * @throws InterruptedException if the thread is interrupted before or while it waits
     */
    public void acquire() throws InterruptedException {
        acquire(1);
    }

    /**
     * Takes n permits at once, and waits until n are free.
     *
     * @param n how many
     * @throws InterruptedException if the thread is interrupted before or while it waits
     * @throws IllegalArgumentException if n is below 0
     */
    public void acquire(int n) throws InterruptedException {
        interruptibly(Native.WAITS_FOR_PERMITS, amount(n));
    }

    /** Takes a permit, and waits until one is free. An interrupt doesn't end the wait, and stays set. */
    public void acquireUninterruptibly() {
        acquireUninterruptibly(1);
    }

    /**
     * Takes n permits at once, and waits until n are free. An interrupt doesn't end the wait, and stays set.
     *
     * @param n how many
     * @throws IllegalArgumentException if n is below 0
     */
    public void acquireUninterruptibly(int n) {
        must(Native.acquire(this, handle(), amount(n)));
    }

    /**
     * Takes a permit if one is free, before those that wait, unless the semaphore is strict.
     *
     * @return whether it did
     */
    public boolean tryAcquire() {
        return tryAcquire(1);
    }

    /**
     * Takes n permits if n are free, before those that wait, unless the semaphore is strict.
     *
     * @param n how many
     * @return whether it did
     * @throws IllegalArgumentException if n is below 0
     */
    public boolean tryAcquire(int n) {
        return tried(Native.tryAcquire(this, handle(), amount(n)));
    }

    /**
     * Takes a permit, and waits for at most this time until one is free.
     *
     * @param time how long
     * @param unit of what
     * @return whether it did
     * @throws InterruptedException if the thread is interrupted before or while it waits
     */
    public boolean tryAcquire(long time, TimeUnit unit) throws InterruptedException {
        return tryAcquire(1, time, unit);
    }

    /**
     * Takes n permits at once, and waits for at most this time until n are free.
     *
     * @param n how many
     * @param time how long
     * @param unit of what
     * @return whether it did
     * @throws InterruptedException if the thread is interrupted before or while it waits
     * @throws IllegalArgumentException if n is below 0
     */
    public boolean tryAcquire(int n, long time, TimeUnit unit) throws InterruptedException {
        return timed(Native.WAITS_FOR_PERMITS, amount(n), time, unit);
    }

    /** Gives a permit. Any thread may. It throws an Error if there would be more than 2147483647. */
    public void release() {
        release(1);
    }

    /**
     * Gives n permits. Any thread may. It throws an Error if there would be more than 2147483647.
     *
     * @param n how many
     * @throws IllegalArgumentException if n is below 0
     */
    public void release(int n) {
        must(Native.release(this, handle(), amount(n)));
    }

    /**
     * Takes all free permits.
     *
     * @return how many
     */
    public int drainPermits() {
        return (int) checked(Native.drain(this, handle()));
    }

    /**
     * Returns the free permits. Another thread may change them at any time.
     *
     * @return their number, below 0 if as many releases have to come first
     */
    public int availablePermits() {
        return (int) number();
    }

    @Override
    String state() {
        return "[Permits = " + availablePermits() + "]";
    }

    private static int amount(int n) {
        if (n < 0) {
            throw new IllegalArgumentException();
        }
        return n;
    }
}
