package aqs;

import java.nio.channels.SelectionKey;
import java.nio.channels.Selector;
import java.nio.channels.spi.AbstractSelectableChannel;
import java.nio.channels.spi.AbstractSelector;
import java.util.Set;
import java.util.concurrent.atomic.AtomicInteger;

/**
 * How {@link Thread#interrupt} reaches a thread that waits in the library.
 *
 * <p>Between `begin` and `end` of a selector, Thread.interrupt calls the selector's `wakeup` in the thread
 * that interrupts. So each thread has a selector that selects nothing, and whose `wakeup` is the library's
 * interrupt. Nothing polls. A thread that is interrupted already is woken by `begin` itself.
 *
 * <p>In JDK 21 and later `wakeup` may come when the call has ended. Then it does nothing, by the state. If it
 * comes in a later call, it does nothing unless the thread is interrupted again, which a thread in a call
 * can't clear.
 */
final class Waits extends AbstractSelector {
    private static final ThreadLocal<Waits> OF_THREAD = ThreadLocal.withInitial(Waits::new);
    private static final int OUTSIDE = 0, INSIDE = 1, SENDING = 2, SENT = 3;

    private final AtomicInteger state = new AtomicInteger();
    private final Thread thread = Thread.currentThread();
    private int number = -1;

    private Waits() {
        super(null);
    }

    /**
     * From here on an interrupt of the calling thread ends its calls of the library, if they are
     * interruptible.
     */
    static Waits enter() {
        Waits waits = OF_THREAD.get();
        if (waits.number < 0) {
            waits.number = Native.self();
        }
        waits.state.lazySet(INSIDE);
        waits.begin();
        return waits;
    }

    /** Ends that, and returns whether an interrupt was sent. Nothing of it is left pending in the library. */
    boolean leave() {
        end();
        while (!state.compareAndSet(INSIDE, OUTSIDE)) {
            if (state.get() == SENT) {
                Native.clearInterrupt();
                state.set(OUTSIDE);
                return true;
            }
            Thread.yield();
        }
        return false;
    }

    /** Interrupts the call that the thread is in, if it is in one. */
    @Override
    public Selector wakeup() {
        while (!state.compareAndSet(INSIDE, SENDING)) {
            if (state.get() != SENDING) {
                return this;
            }
            Thread.yield();
        }
        boolean due = thread.isInterrupted();
        if (due && number >= 0) {
            AqsObject.must(Native.interrupt(number));
        }
        state.set(due ? SENT : INSIDE);
        return this;
    }

    @Override
    protected void implCloseSelector() {}

    @Override
    protected SelectionKey register(AbstractSelectableChannel channel, int operations, Object attachment) {
        throw new UnsupportedOperationException();
    }

    @Override
    public Set<SelectionKey> keys() {
        throw new UnsupportedOperationException();
    }

    @Override
    public Set<SelectionKey> selectedKeys() {
        throw new UnsupportedOperationException();
    }

    @Override
    public int selectNow() {
        throw new UnsupportedOperationException();
    }

    @Override
    public int select(long timeout) {
        throw new UnsupportedOperationException();
    }

    @Override
    public int select() {
        throw new UnsupportedOperationException();
    }
}
