package aqs;

import java.util.concurrent.TimeUnit;

/**
 * A gate that opens when it has been counted down: {@link java.util.concurrent.CountDownLatch} over the
 * library.
 */
public class AqsCountDownLatch extends AqsObject {
    /**
     * A latch with a count.
     *
     * @param count how often it has to be counted down
     * @throws IllegalArgumentException if the count is below 0
     */
    public AqsCountDownLatch(int count) {
        this(count, new AqsOptions());
    }

    /**
     * A latch with options.
     *
     * @param count how often it has to be counted down
     * @param how the options
     * @throws IllegalArgumentException if the count is below 0
     */
    public AqsCountDownLatch(int count, AqsOptions how) {
        super(Native.LATCH, count, how);
    }

    /** Lowers the count by one, and wakes all that wait if it is 0 then. At 0 it does nothing. */
    public void countDown() {
        must(Native.countDown(this, handle()));
    }

    /**
     * Returns the count. Another thread may lower it at any time.
     *
     * @return the count
     */
    public long getCount() {
        return number();
    }

    /**
     * Waits until the count is 0.
     *
     * @throws InterruptedException if the thread is interrupted before or while it waits
     */
    public void await() throws InterruptedException {
        interruptibly(Native.WAITS_FOR_LATCH, 0);
    }

    /** Waits until the count is 0. An interrupt doesn't end the wait, and stays set. */
    public void awaitUninterruptibly() {
        must(Native.awaitLatch(this, handle()));
    }

    /**
     * Waits until the count is 0, for at most this time.
     *
     * @param time how long
     * @param unit of what
     * @return whether it was 0
     * @throws InterruptedException if the thread is interrupted before or while it waits
     */
    public boolean await(long time, TimeUnit unit) throws InterruptedException {
        return timed(Native.WAITS_FOR_LATCH, 0, time, unit);
    }

    @Override
    String state() {
        return "[Count = " + getCount() + "]";
    }
}
