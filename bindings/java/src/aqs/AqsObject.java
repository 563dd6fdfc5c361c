package aqs;

import java.nio.charset.StandardCharsets;
import java.util.concurrent.TimeUnit;

/**
 * An object of the library: it records its calls.
 *
 * <p>Each constructor, and each call except `toString`, `isFair` and `policy`, throws
 * UnsupportedOperationException if a virtual thread makes it. Each call may throw {@link AqsException}, for failures that the JDK's classes
 * don't have, or OutOfMemoryError. It throws IllegalStateException if the object is closed. After an
 * exception nothing has changed, unless the call says otherwise.
 */
public abstract class AqsObject implements AutoCloseable {
    private static final long NANOSECONDS = 1_000_000;

    private final int kind;
    private final AqsPolicy policy;
    private final Memory memory;
    private volatile long at;

    AqsObject(int kind, int number, AqsOptions how) {
        Callers.check();
        how.check();
        this.kind = kind;
        policy = how.policy;
        boolean hasConditions = kind == Native.LOCK || kind == Native.READ_WRITE;
        int conditions = hasConditions ? how.mostConditions() : how.conditions;
        at = checked(Native.open(
            kind, number, policy.ordinal(), how.keeps, how.entries, how.threads, conditions));
        memory = new Memory(this, kind, at);
    }

    /**
     * Returns the text of the history since the last trim, as `aqs audit` and `aqs draw` read it.
     *
     * @return the text
     */
    public final String history() {
        byte[][] text = new byte[1][];
        must(Native.history(this, kind, handle(), text));
        return new String(text[0], StandardCharsets.US_ASCII);
    }

    /**
     * Returns which thread each seat of the history is, or was last, as `aqs draw --names` reads it: for each
     * seat a line with its number and the thread's name, cut to 15 characters.
     *
     * @return the text
     */
    public final String names() {
        byte[][] text = new byte[1][];
        must(Native.names(this, kind, handle(), text));
        return new String(text[0], StandardCharsets.UTF_8);
    }

    /**
     * Forgets the recorded entries. Nothing else changes.
     *
     * @return how many there were
     */
    public final long trim() {
        return checked(Native.trim(this, kind, handle()));
    }

    /**
     * Returns whether new calls queue up after those that wait. A latch ignores it.
     *
     * @return whether the object was opened as fair or strict
     */
    public final boolean isFair() {
        return policy != AqsPolicy.NONFAIR;
    }

    /**
     * Returns the policy that the object was opened with. A latch ignores it.
     *
     * @return which new calls queue up
     */
    public final AqsPolicy policy() {
        return policy;
    }

    /**
     * Returns whether threads are in the queue, as {@link #getQueueLength} counts them. They may leave at any
     * time. It records nothing.
     *
     * @return whether there are some
     */
    public final boolean hasQueuedThreads() {
        return getQueueLength() > 0;
    }

    /**
     * Returns how many threads are in the queue: those that wait for the lock, for permits or for the latch,
     * but not those that wait on conditions. Others may come or leave at any time. It records nothing.
     *
     * @return their number
     */
    public final int getQueueLength() {
        return (int) checked(Native.queueLength(this, kind, handle()));
    }

    /**
     * Frees the native memory. No thread may be in a call of the object, and no other may own it. Later calls
     * throw IllegalStateException, but another close does nothing. An object that nobody closes is closed
     * some time after it can't be reached any more.
     *
     * @throws IllegalStateException if threads wait in the object, which stays as it was
     */
    @Override
    public final void close() {
        Callers.check();
        long open = at;
        if (open != 0 && Native.waiters(this, kind, open) > 0) {
            throw new IllegalStateException("aqs: threads wait in the object");
        }
        at = 0;
        memory.free();
    }

    /** What the class's toString appends, if it can be had. */
    abstract String state();

    /** As that of the JDK's class. It also says so if the object is closed. */
    @Override
    public String toString() {
        return super.toString() + (at == 0 ? "[Closed]" : Callers.isVirtual() ? "" : state());
    }

    /** The handle for a call that this thread may make. */
    final long handle() {
        Callers.check();
        long open = at;
        if (open == 0) {
            throw new IllegalStateException("aqs: closed");
        }
        return open;
    }

    /** Whether any thread owns the lock, or its write side. */
    final boolean locked() {
        return checked(Native.isLocked(this, kind, handle())) > 0;
    }

    /** The free permits of a semaphore, or the count of a latch. */
    final long number() {
        long[] into = new long[1];
        must(Native.number(this, kind, handle(), into));
        return into[0];
    }

    /** Makes a call that an interrupt may end. */
    final void interruptibly(int call, int number) throws InterruptedException {
        long open = handle();
        int status = Native.INTERRUPTED;
        boolean sent = false;
        Waits waits = Waits.enter();
        try {
            status = Native.interruptible(this, open, call, number);
        } finally {
            sent = waits.leave();
        }
        ended(status, sent);
    }

    /** The same, for at most this time. Returns whether the call got what it asks for. */
    final boolean timed(int call, int number, long time, TimeUnit unit) throws InterruptedException {
        long left = unit.toNanos(time);
        long end = System.nanoTime() + Math.max(0, left);
        do {
            if (timedOnce(call, number, left)) {
                return true;
            }
            left = end - System.nanoTime();
        } while (left > 0);
        return false;
    }

    /** The same, but it may end before its time: no call of the library lasts longer than some 24 days. */
    final boolean timedOnce(int call, int number, long nanoseconds) throws InterruptedException {
        long open = handle();
        int status = Native.INTERRUPTED;
        boolean sent = false;
        Waits waits = Waits.enter();
        try {
            status = Native.timed(this, open, call, number, milliseconds(nanoseconds));
        } finally {
            sent = waits.leave();
        }
        return ended(status, sent);
    }

    /** Whether such a call got what it asks for. An interrupt that didn't end it stays set in the thread. */
    private static boolean ended(int status, boolean sent) throws InterruptedException {
        if (status == Native.INTERRUPTED) {
            if (sent) {
                Thread.interrupted();
            }
            throw new InterruptedException();
        }
        return status != Native.TIMED_OUT && tried(status);
    }

    /** Rounded up. */
    private static int milliseconds(long nanoseconds) {
        long whole = nanoseconds / NANOSECONDS + (nanoseconds % NANOSECONDS > 0 ? 1 : 0);
        return (int) Math.max(0, Math.min(whole, Integer.MAX_VALUE));
    }

    /** Throws unless the call got what it asks for. */
    static void must(int status) {
        if (status != Native.OK) {
            throw fault(status);
        }
    }

    /** Whether a try got what it asks for. It throws unless that would have taken a wait. */
    static boolean tried(int status) {
        if (status == Native.WOULD_BLOCK) {
            return false;
        }
        must(status);
        return true;
    }

    /** The value, unless it is a status, made negative: then it throws. */
    static long checked(long value) {
        if (value < 0) {
            throw fault((int) -value);
        }
        return value;
    }

    /** What the JDK throws in such a case, or an AqsException where it has no such case. */
    private static RuntimeException fault(int status) {
        switch (status) {
            case Native.NOT_OWNER:
                return new IllegalMonitorStateException();
            case Native.HOLDS_READ:
                return new IllegalMonitorStateException("aqs: the thread also holds the lock to read");
            case Native.BAD_AMOUNT:
            case Native.OUT_OF_RANGE:
                return new IllegalArgumentException("aqs: a number is out of range");
            case Native.TOO_MANY_HOLDS:
                throw new Error("Maximum lock count exceeded");
            case Native.TOO_MANY_PERMITS:
                throw new Error("Maximum permit count exceeded");
            case Native.OUT_OF_MEMORY:
                throw new OutOfMemoryError("aqs");
            default:
                return new AqsException(status);
        }
    }
}
