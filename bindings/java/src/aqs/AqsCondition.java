package aqs;

import java.util.Date;
import java.util.List;
import java.util.concurrent.TimeUnit;
import java.util.concurrent.locks.Condition;

/** A condition of a lock. Its fields change under the lock alone. */
final class AqsCondition implements Condition {
    final Conditions conditions;
    private final Exclusive lock;
    private final int own;
    private int number;
    /** Threads that have begun a wait, and don't have the lock again yet. */
    private int inside;
    /**
     * At least as many of them as wait for a signal: those whose time is up count until they have the lock.
     */
    private int waiting;

    AqsCondition(Conditions conditions, int own) {
        this.conditions = conditions;
        this.own = own;
        lock = conditions.lock;
    }

    @Override
    public void await() throws InterruptedException {
        int holds = begin();
        try {
            lock.object.interruptibly(
                lock.ofWriters ? Native.WAITS_ON_WRITERS_CONDITION : Native.WAITS_ON_CONDITION, number());
        } finally {
            end(holds);
        }
    }

    @Override
    public void awaitUninterruptibly() {
        long at = lock.object.handle();
        int holds = begin();
        int status = Native.NOT_OWNER;
        try {
            status = lock.ofWriters
                ? Native.writersAwait(lock.object, at, number())
                : Native.await(lock.object, at, number());
        } finally {
            end(holds);
        }
        AqsObject.must(status);
    }

    @Override
    public long awaitNanos(long nanoseconds) throws InterruptedException {
        long end = System.nanoTime() + nanoseconds;
        await(nanoseconds, TimeUnit.NANOSECONDS);
        long left = end - System.nanoTime();
        return left <= nanoseconds ? left : Long.MIN_VALUE;
    }

    @Override
    public boolean await(long time, TimeUnit unit) throws InterruptedException {
        long left = Math.max(0, unit.toNanos(time));
        long end = System.nanoTime() + left;
        while (!awaitOnce(left)) {
            left = end - System.nanoTime();
            if (left <= 0) {
                return false;
            }
        }
        return true;
    }

    @Override
    public boolean awaitUntil(Date deadline) throws InterruptedException {
        long end = deadline.getTime();
        for (;;) {
            long now = System.currentTimeMillis();
            if (awaitOnce(TimeUnit.MILLISECONDS.toNanos(end > now ? end - now : 0))) {
                return true;
            }
            if (System.currentTimeMillis() >= end) {
                return false;
            }
        }
    }

    @Override
    public void signal() {
        signal(false);
    }

    @Override
    public void signalAll() {
        signal(true);
    }

    /** At least as many as wait. The calling thread owns the lock. */
    int waiting() {
        lock.mustBeMine();
        return waiting;
    }

    private boolean awaitOnce(long nanoseconds) throws InterruptedException {
        int holds = begin();
        try {
            return lock.object.timedOnce(
                lock.ofWriters ? Native.WAITS_ON_WRITERS_CONDITION : Native.WAITS_ON_CONDITION, number(),
                nanoseconds);
        } finally {
            end(holds);
        }
    }

    /**
     * Before a wait: gives up the thread's holds and returns their number, or does nothing if it has none.
     */
    private int begin() {
        if (!lock.isMine()) {
            return 0;
        }
        if (inside == 0) {
            number = conditions.bind(this, own);
        }
        inside++;
        waiting++;
        return lock.giveUp();
    }

    /** After a wait: the thread has its holds again. */
    private void end(int holds) {
        if (holds == 0) {
            return;
        }
        lock.have(holds);
        inside--;
        waiting = Math.min(waiting, inside);
        if (inside == 0) {
            conditions.release(this, number);
        }
    }

    /** If it shares its number, all who wait there are woken: they can't tell whose signal it is. */
    private void signal(boolean all) {
        long at = lock.object.handle();
        if (!lock.isMine()) {
            throw new IllegalMonitorStateException();
        }
        if (inside == 0 && !conditions.isFree(own)) {
            return;
        }
        List<AqsCondition> woken = conditions.having(number());
        boolean wakesAll = all || woken.size() > 1;
        AqsObject.must(send(at, wakesAll));
        if (wakesAll) {
            for (AqsCondition condition : woken) {
                condition.waiting = 0;
            }
        } else {
            waiting = Math.max(0, waiting - 1);
        }
    }

    private int send(long at, boolean all) {
        AqsObject object = lock.object;
        if (lock.ofWriters) {
            return all
                ? Native.writersSignalAll(object, at, number())
                : Native.writersSignal(object, at, number());
        }
        return all ? Native.signalAll(object, at, number()) : Native.signal(object, at, number());
    }

    private int number() {
        return inside == 0 ? own : number;
    }
}
