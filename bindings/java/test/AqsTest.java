import aqs.AqsCountDownLatch;
import aqs.AqsCyclicBarrier;
import aqs.AqsException;
import aqs.AqsLock;
import aqs.AqsObject;
import aqs.AqsOptions;
import aqs.AqsPolicy;
import aqs.AqsReadWriteLock;
import aqs.AqsSemaphore;
import java.nio.charset.StandardCharsets;
import java.nio.file.Files;
import java.nio.file.Path;
import java.nio.file.Paths;
import java.util.ArrayDeque;
import java.util.ArrayList;
import java.util.Arrays;
import java.util.Collections;
import java.util.List;
import java.util.Random;
import java.util.concurrent.BrokenBarrierException;
import java.util.concurrent.CountDownLatch;
import java.util.concurrent.TimeUnit;
import java.util.concurrent.atomic.AtomicInteger;
import java.util.concurrent.atomic.AtomicIntegerArray;
import java.util.concurrent.locks.Condition;
import java.util.concurrent.locks.Lock;
import java.util.concurrent.locks.LockSupport;
import java.util.concurrent.locks.ReentrantLock;

/** What one scenario can't say: many threads at once, and what the JDK hasn't. java AqsTest FOLDER */
final class AqsTest {
    private static Path folder;

    private AqsTest() {}

    interface Work {
        void run() throws Exception;
    }

    static void check(boolean fact) {
        if (!fact) {
            throw new AssertionError();
        }
    }

    static void same(Object found, Object expected) {
        if (!found.equals(expected)) {
            throw new AssertionError(found + ", not " + expected);
        }
    }

    static void throwing(Class<? extends Throwable> expected, Work work) {
        try {
            work.run();
        } catch (Throwable found) {
            same(found.getClass(), expected);
            return;
        }
        throw new AssertionError("no " + expected);
    }

    static void refused(Work work) {
        throwing(IllegalArgumentException.class, work);
    }

    /** It throws what a failure has that the JDK's classes don't: the name of a status, and its number. */
    static void failing(String name, int status, Work work) {
        try {
            work.run();
        } catch (Exception found) {
            same(found.getMessage(), name);
            same(((AqsException) found).status(), status);
            return;
        }
        throw new AssertionError("no " + name);
    }

    static void full(Work work) {
        failing("AQS_HISTORY_FULL", 10, work);
    }

    interface Fact {
        boolean holds();
    }

    static void until(Fact fact) throws InterruptedException {
        while (!fact.holds()) {
            Thread.sleep(1);
        }
    }

    static void keep(String name, String history) throws Exception {
        check(history.startsWith("aqs-history "));
        Files.write(folder.resolve("java-" + name + ".history"), history.getBytes(StandardCharsets.US_ASCII));
    }

    static Thread start(Work work) {
        Thread thread = new Thread(() -> {
            try {
                work.run();
            } catch (Throwable fault) {
                fault.printStackTrace();
                System.exit(1);
            }
        });
        thread.start();
        return thread;
    }

    static void join(List<Thread> threads) throws InterruptedException {
        for (Thread thread : threads) {
            thread.join();
        }
    }

    static AqsOptions kept(boolean fair) {
        AqsOptions how = new AqsOptions().keepHistory();
        return fair ? how.fair() : how;
    }

    /** Threads that are interrupted all the time, while they acquire in each way. */
    static final class Storm {
        private static final int THREADS = 6, ROUNDS = 100, INTERRUPTS = 150;
        private final AtomicIntegerArray owed = new AtomicIntegerArray(THREADS);
        private final AtomicInteger sent = new AtomicInteger(), seen = new AtomicInteger();
        private final AtomicInteger running = new AtomicInteger(THREADS), acquired = new AtomicInteger();
        private final Fact isHeld;
        private int inside, got;

        Storm(Fact isHeld) {
            this.isHeld = isHeld;
        }

        interface Way {
            boolean acquire(int kind) throws InterruptedException;
        }

        /** Each interrupt comes out once: as an exception, or as a flag that is still set. */
        void run(Way way, Work release) throws Exception {
            List<Thread> threads = new ArrayList<>();
            for (int t = 0; t < THREADS; t++) {
                int me = t;
                threads.add(start(() -> acquireOften(me, way, release)));
            }
            Random random = new Random(7);
            while (running.get() > 0) {
                int to = random.nextInt(THREADS);
                if (owed.compareAndSet(to, 0, 1)) {
                    sent.incrementAndGet();
                    threads.get(to).interrupt();
                }
                Thread.yield();
            }
            join(threads);
            same(got, acquired.get());
            int unseen = 0;
            for (int t = 0; t < THREADS; t++) {
                unseen += owed.get(t);
            }
            same(seen.get() + unseen, sent.get());
            check(seen.get() >= INTERRUPTS && got > ROUNDS);
        }

        private void acquireOften(int me, Way way, Work release) throws Exception {
            Random random = new Random(me);
            for (int i = 0; i < ROUNDS || seen.get() < INTERRUPTS; i++) {
                if (once(me, way, random.nextInt(4))) {
                    acquired.incrementAndGet();
                    inside++;
                    check(inside == 1 && isHeld.holds());
                    got++;
                    inside--;
                    release.run();
                } else {
                    LockSupport.parkNanos(50_000);
                }
                takeFlag(me);
            }
            running.decrementAndGet();
        }

        private boolean once(int me, Way way, int kind) {
            try {
                return way.acquire(kind);
            } catch (InterruptedException interrupt) {
                check(!Thread.currentThread().isInterrupted());
                see(me);
                return false;
            }
        }

        /** What the interrupter sent comes soon. */
        private void takeFlag(int me) {
            if (Thread.interrupted()) {
                see(me);
            }
        }

        private void see(int me) {
            seen.incrementAndGet();
            check(owed.compareAndSet(me, 1, 0));
        }
    }

    static boolean acquire(Lock lock, int kind) throws InterruptedException {
        switch (kind) {
            case 0: lock.lock(); return true;
            case 1: lock.lockInterruptibly(); return true;
            case 2: return lock.tryLock(1, TimeUnit.MILLISECONDS);
            default: return lock.tryLock();
        }
    }

    static boolean acquire(AqsSemaphore permits, int kind) throws InterruptedException {
        switch (kind) {
            case 0: permits.acquireUninterruptibly(2); return true;
            case 1: permits.acquire(2); return true;
            case 2: return permits.tryAcquire(2, 1, TimeUnit.MILLISECONDS);
            default: return permits.tryAcquire(2);
        }
    }

    static void interruptedLocks(boolean fair) throws Exception {
        try (AqsLock lock = new AqsLock(kept(fair));
                AqsReadWriteLock sides = new AqsReadWriteLock(kept(fair));
                AqsSemaphore permits = new AqsSemaphore(3, kept(fair))) {
            AqsReadWriteLock.WriteLock side = sides.writeLock();
            new Storm(() -> lock.getHoldCount() == 1).run(kind -> acquire(lock, kind), lock::unlock);
            new Storm(() -> side.getHoldCount() == 1).run(kind -> acquire(side, kind), side::unlock);
            new Storm(() -> permits.availablePermits() < 2)
                .run(kind -> acquire(permits, kind), () -> permits.release(2));
            same(permits.availablePermits(), 3);
            check(lock.tryLock() && sides.writeLock().tryLock());
            keep("interrupted-lock-" + fair, lock.history());
            keep("interrupted-writers-" + fair, sides.history());
            keep("interrupted-semaphore-" + fair, permits.history());
        }
    }

    /**
     * A queue over two conditions, with a producer and consumers that are interrupted and put back to work.
     */
    static void buffer(Lock lock) throws Exception {
        Condition notEmpty = lock.newCondition();
        Condition notFull = lock.newCondition();
        ArrayDeque<Integer> items = new ArrayDeque<>();
        AtomicInteger sum = new AtomicInteger(), left = new AtomicInteger(1200);
        List<Thread> threads = new ArrayList<>();
        for (int t = 0; t < 3; t++) {
            threads.add(start(() -> {
                for (int i = 0; i < 400; i++) {
                    sum.addAndGet(taken(lock, notEmpty, notFull, items));
                    left.decrementAndGet();
                }
            }));
        }
        Thread interrupter = start(() -> {
            while (left.get() > 0) {
                threads.forEach(Thread::interrupt);
                Thread.sleep(1);
            }
        });
        for (int i = 0; i < 1200; i++) {
            lock.lock();
            while (items.size() == 2) {
                notFull.awaitUninterruptibly();
            }
            items.add(i);
            notEmpty.signal();
            lock.unlock();
        }
        join(threads);
        interrupter.join();
        same(sum.get(), 1200 * 1199 / 2);
    }

    static int taken(Lock lock, Condition notEmpty, Condition notFull, ArrayDeque<Integer> items) {
        lock.lock();
        try {
            while (items.isEmpty()) {
                try {
                    notEmpty.await();
                } catch (InterruptedException again) {
                    // The thread that was interrupted looks again.
                }
            }
            notFull.signal();
            return items.remove();
        } finally {
            lock.unlock();
        }
    }

    static void waitSomehow(Condition condition, int how) throws InterruptedException {
        switch (how % 3) {
            case 0: condition.await(); break;
            case 1: condition.awaitUninterruptibly(); break;
            default: condition.awaitNanos(TimeUnit.MINUTES.toNanos(1));
        }
    }

    /** As many conditions as one likes, each with a waiter, signalled in any order. */
    static void manyConditions(Lock lock, int number) throws Exception {
        List<Condition> conditions = new ArrayList<>();
        boolean[] isSignalled = new boolean[number];
        List<Integer> order = new ArrayList<>();
        List<Thread> threads = new ArrayList<>();
        AtomicInteger waiting = new AtomicInteger();
        for (int i = 0; i < number; i++) {
            Condition condition = lock.newCondition();
            int me = i;
            conditions.add(condition);
            order.add(i);
            threads.add(start(() -> {
                lock.lock();
                waiting.incrementAndGet();
                while (!isSignalled[me]) {
                    waitSomehow(condition, me);
                }
                lock.unlock();
            }));
        }
        Collections.shuffle(order, new Random(5));
        while (waiting.get() < number) {
            Thread.sleep(1);
        }
        for (int i : order) {
            lock.lock();
            isSignalled[i] = true;
            if (i % 2 == 0) {
                conditions.get(i).signal();
            } else {
                conditions.get(i).signalAll();
            }
            lock.unlock();
            threads.get(i).join();
        }
    }

    /**
     * While 16 conditions have waiters, whatever others there are, a signal wakes a waiter of its own and no
     * other.
     */
    static void ownSignals(Lock lock, int number, int unused) throws Exception {
        AtomicIntegerArray wakes = new AtomicIntegerArray(number);
        List<Condition> conditions = new ArrayList<>();
        List<Thread> threads = new ArrayList<>();
        AtomicInteger waiting = new AtomicInteger();
        for (int i = 0; i < number; i++) {
            int me = i;
            Condition condition = lock.newCondition();
            for (int more = 0; more < unused; more++) {
                lock.newCondition();
            }
            conditions.add(condition);
            threads.add(start(() -> {
                lock.lock();
                waiting.incrementAndGet();
                condition.await();
                wakes.incrementAndGet(me);
                lock.unlock();
            }));
        }
        while (waiting.get() < number) {
            Thread.sleep(1);
        }
        for (int i = number - 1; i >= 0; i--) {
            lock.lock();
            conditions.get(i).signal();
            lock.unlock();
            threads.get(i).join();
            for (int other = 0; other < number; other++) {
                same(wakes.get(other), other < i ? 0 : 1);
            }
        }
    }

    static Thread startWaiting(Lock lock, Condition condition) throws InterruptedException {
        AtomicInteger waiting = new AtomicInteger();
        Thread waiter = start(() -> {
            lock.lock();
            waiting.incrementAndGet();
            condition.await();
            lock.unlock();
        });
        while (waiting.get() < 1) {
            Thread.sleep(1);
        }
        return waiter;
    }

    /**
     * Of four conditions over two numbers, the second and the fourth have waiters. A signal of another wakes
     * nobody, whichever numbers they have.
     */
    static void signalsToNobody(AqsObject object, Lock lock) throws Exception {
        Condition[] conditions = new Condition[4];
        for (int i = 0; i < conditions.length; i++) {
            conditions[i] = lock.newCondition();
        }
        List<Thread> threads = new ArrayList<>();
        List<Integer> woken = new ArrayList<>();
        for (int waiters = 0; waiters <= 2; waiters++) {
            lock.lock();
            for (int i = 0; i < conditions.length; i++) {
                if (i % 2 == 0 || i / 2 >= waiters) {
                    conditions[i].signal();
                    conditions[i].signalAll();
                }
            }
            woken.add(object.getQueueLength());
            lock.unlock();
            if (waiters < 2) {
                threads.add(startWaiting(lock, conditions[2 * waiters + 1]));
            }
        }
        lock.lock();
        for (int i = 1; i <= 3; i += 2) {
            conditions[i].signal();
            woken.add(object.getQueueLength());
        }
        lock.unlock();
        join(threads);
        same(woken, Arrays.asList(0, 0, 0, 1, 2));
    }

    static void conditions() throws Exception {
        for (int number : new int[] {1, 2, 16}) {
            try (AqsLock lock = new AqsLock(kept(false).conditions(number));
                    AqsReadWriteLock sides = new AqsReadWriteLock(kept(true).conditions(number))) {
                manyConditions(lock, 40);
                manyConditions(sides.writeLock(), 40);
                buffer(lock);
                ownSignals(lock, number, 0);
                ownSignals(sides.writeLock(), number, 3);
                keep("conditions-" + number, lock.history());
                keep("writers-conditions-" + number, sides.history());
            }
        }
        try (AqsLock lock = new AqsLock(kept(false).conditions(2));
                AqsReadWriteLock sides = new AqsReadWriteLock(kept(true).conditions(2))) {
            signalsToNobody(lock, lock);
            signalsToNobody(sides, sides.writeLock());
            keep("signals-to-nobody", lock.history());
        }
        manyConditions(new ReentrantLock(), 40);
        ownSignals(new ReentrantLock(), 16, 1);
        buffer(new ReentrantLock());
        try (AqsLock lock = new AqsLock(kept(false)); AqsLock plain = new AqsLock()) {
            ownSignals(lock, 16, 1);
            Condition one = lock.newCondition(), other = plain.newCondition();
            plain.lock();
            throwing(IllegalArgumentException.class, () -> plain.hasWaiters(one));
            Condition foreign = new ReentrantLock().newCondition();
            throwing(IllegalArgumentException.class, () -> plain.getWaitQueueLength(foreign));
            throwing(NullPointerException.class, () -> plain.hasWaiters(null));
            check(!plain.hasWaiters(other));
            try (AqsReadWriteLock sides = new AqsReadWriteLock()) {
                for (Condition none : Arrays.asList(one, other, foreign)) {
                    throwing(IllegalArgumentException.class, () -> sides.hasWaiters(none));
                    throwing(IllegalArgumentException.class, () -> sides.getWaitQueueLength(none));
                }
            }
            keep("own-signals", lock.history());
        }
    }

    /** Who owns the lock has its holds, also right after another's. Stops of all threads make such moments last. */
    static void holdsOfEach() throws Exception {
        try (AqsLock lock = new AqsLock()) {
            AtomicInteger stops = new AtomicInteger();
            List<Thread> threads = new ArrayList<>();
            for (int t = 0; t < 3; t++) {
                threads.add(start(() -> {
                    while (stops.get() < 1000) {
                        lock.lock();
                        same(lock.getHoldCount(), 1);
                        lock.unlock();
                        check(!lock.isHeldByCurrentThread());
                    }
                }));
            }
            for (; stops.get() < 1000; stops.incrementAndGet()) {
                Thread.getAllStackTraces();
            }
            join(threads);
        }
    }

    /** Conditions that share a number share their signals: after one of those nobody waits on either. */
    static void sharedSignals() throws Exception {
        try (AqsLock lock = new AqsLock(kept(false).conditions(1))) {
            List<Condition> both = Arrays.asList(lock.newCondition(), lock.newCondition());
            for (int signals = 0; signals < 2; signals++) {
                AtomicInteger waiting = new AtomicInteger();
                List<Thread> threads = new ArrayList<>();
                for (Condition condition : both) {
                    threads.add(start(() -> {
                        lock.lock();
                        waiting.incrementAndGet();
                        condition.await();
                        lock.unlock();
                    }));
                }
                until(() -> waiting.get() == 2);
                lock.lock();
                check(lock.hasWaiters(both.get(0)) && lock.hasWaiters(both.get(1)));
                both.get(signals).signal();
                check(!lock.hasWaiters(both.get(0)) && !lock.hasWaiters(both.get(1)));
                same(lock.getQueueLength(), 2);
                lock.unlock();
                join(threads);
            }
            keep("shared-signals", lock.history());
        }
    }

    static void mostHolds(Lock side) {
        for (int i = 0; i < 65535; i++) {
            side.lock();
        }
        try {
            side.lock();
            check(false);
        } catch (Error fault) {
            same(String.valueOf(fault.getMessage()), "Maximum lock count exceeded");
        }
        throwing(Error.class, side::tryLock);
        throwing(Error.class, side::lockInterruptibly);
        throwing(Error.class, () -> side.tryLock(1, TimeUnit.SECONDS));
        for (int i = 0; i < 65535; i++) {
            side.unlock();
        }
        throwing(IllegalMonitorStateException.class, side::unlock);
    }

    static void sides() throws Exception {
        try (AqsReadWriteLock lock = new AqsReadWriteLock(new AqsOptions().mostEntries(1 << 18))) {
            mostHolds(lock.readLock());
            same(lock.getReadHoldCount(), 0);
            check(lock.trim() >= 2 * 65535);
            mostHolds(lock.writeLock());
            same(lock.getWriteHoldCount(), 0);
            Condition met = lock.writeLock().newCondition();
            lock.writeLock().lock();
            lock.readLock().lock();
            throwing(IllegalMonitorStateException.class, met::await);
            throwing(IllegalMonitorStateException.class, () -> met.await(1, TimeUnit.MILLISECONDS));
            same(lock.getWriteHoldCount(), 1);
            same(lock.getReadHoldCount(), 1);
            same(lock.toString().substring(lock.toString().indexOf('[')), "[Write locks = 1]");
            lock.readLock().unlock();
            check(!met.await(1, TimeUnit.MILLISECONDS));
            lock.writeLock().lock();
            lock.readLock().lock();
            start(() -> check(lock.toString().endsWith("[Write locks = 2]"))).join();
            try (AqsReadWriteLock other = new AqsReadWriteLock()) {
                same(other.getReadHoldCount(), 0);
                check(other.toString().endsWith("[Write locks = 0]"));
            }
        }
    }

    /** Which calls queue up behind a thread that waits for more permits, or to write. */
    static void policies(AqsOptions how, boolean triesBarge, boolean timesBarge) throws Exception {
        try (AqsSemaphore permits = new AqsSemaphore(1, how); AqsReadWriteLock lock = new AqsReadWriteLock(how)) {
            Thread waiter = start(() -> permits.acquire(2));
            until(permits::hasQueuedThreads);
            same(permits.tryAcquire(), triesBarge);
            permits.release(triesBarge ? 1 : 0);
            same(permits.tryAcquire(0, TimeUnit.MILLISECONDS), timesBarge);
            permits.release(timesBarge ? 2 : 1);
            waiter.join();
            lock.readLock().lock();
            Thread writer = start(lock.writeLock()::lock);
            until(lock::hasQueuedThreads);
            start(() -> {
                same(lock.readLock().tryLock(), triesBarge);
                if (triesBarge) {
                    lock.readLock().unlock();
                }
            }).join();
            lock.readLock().unlock();
            writer.join();
        }
    }

    /** A call that a full history has no room for is refused, and leaves all as it was. */
    static void refusals() throws Exception {
        AqsOptions few = new AqsOptions().keepHistory().mostEntries(16);
        try (AqsLock lock = new AqsLock(few); AqsReadWriteLock sides = new AqsReadWriteLock(few)) {
            refusals(lock, lock, lock::getHoldCount, lock.newCondition());
            refusals(sides, sides.writeLock(), sides::getWriteHoldCount, sides.writeLock().newCondition());
            sides.trim();
            int holds = holdsUntilFull(sides.readLock());
            refusedHolds(sides.readLock(), sides::getReadHoldCount, holds);
            unlock(sides.readLock(), holds);
            same(sides.getReadHoldCount(), 0);
        }
        try (AqsCyclicBarrier barrier = new AqsCyclicBarrier(1, null, few)) {
            full(() -> {
                for (;;) {
                    barrier.await();
                }
            });
        }
        try (AqsCyclicBarrier barrier = new AqsCyclicBarrier(2, null, few)) {
            for (int i = 0; i < 6; i++) {
                same(barrier.getNumberWaiting(), 0);
            }
            full(barrier::await); // there is room to lock and to unlock, but not to wait
            same(barrier.getNumberWaiting(), 0);
        }
    }

    interface Number {
        int get();
    }

    static void refusals(AqsObject object, Lock lock, Number holds, Condition met) throws Exception {
        AtomicInteger woken = new AtomicInteger();
        Thread waiter = start(() -> {
            lock.lock();
            met.awaitUninterruptibly();
            woken.incrementAndGet();
            lock.unlock();
        });
        Condition unused = lock.newCondition();
        until(() -> waiting(object, lock, met) == 1);
        object.trim();
        int had = holdsUntilFull(lock);
        full(() -> {
            for (;;) {
                unused.signal();
            }
        });
        full(unused::signalAll);
        same(waiting(object, met), 1);
        for (Work wait : Arrays.<Work>asList(
                unused::await, unused::awaitUninterruptibly, () -> unused.await(1, TimeUnit.MILLISECONDS))) {
            full(wait);
            same(holds.get(), had);
            same(waiting(object, unused), 0);
        }
        refusedHolds(lock, holds, had);
        start(() -> {
            full(lock::lock);
            same(holds.get(), 0);
        }).join();
        object.trim();
        met.signal();
        same(waiting(object, met), 0);
        unlock(lock, had);
        same(holds.get(), 0);
        waiter.join();
        same(woken.get(), 1);
    }

    static int waiting(AqsObject object, Condition condition) {
        return object instanceof AqsLock
            ? ((AqsLock) object).getWaitQueueLength(condition)
            : ((AqsReadWriteLock) object).getWaitQueueLength(condition);
    }

    static int waiting(AqsObject object, Lock lock, Condition condition) {
        lock.lock();
        try {
            return waiting(object, condition);
        } finally {
            lock.unlock();
            object.trim();
        }
    }

    static int holdsUntilFull(Lock side) {
        int[] holds = new int[1];
        full(() -> {
            for (;; holds[0]++) {
                side.lock();
            }
        });
        check(holds[0] > 1);
        return holds[0];
    }

    static void refusedHolds(Lock side, Number holds, int had) {
        for (Work way : Arrays.<Work>asList(
                side::lock, side::lockInterruptibly, side::tryLock, () -> side.tryLock(1, TimeUnit.SECONDS))) {
            full(way);
            same(holds.get(), had);
        }
    }

    static void unlock(Lock side, int holds) {
        for (int i = 0; i < holds; i++) {
            side.unlock();
        }
    }

    /** A time is one wait, whatever part of a millisecond it has, and none if there is no time. */
    static void partsOfAMillisecond() throws Exception {
        try (AqsLock lock = new AqsLock(kept(false))) {
            lock.lock();
            start(() -> {
                for (int microseconds : new int[] {-1, 0, 300, 1500, 2000}) {
                    lock.trim();
                    check(!lock.tryLock(microseconds, TimeUnit.MICROSECONDS));
                    same(lock.trim(), microseconds > 0 ? 2L : 1L);
                }
            }).join();
            lock.unlock();
        }
    }

    /** An interrupt doesn't end such a wait at a latch, and stays set. */
    static void uninterruptibleLatch() throws Exception {
        try (AqsCountDownLatch latch = new AqsCountDownLatch(2, kept(false))) {
            AtomicInteger ended = new AtomicInteger();
            Thread waiter = start(() -> {
                latch.awaitUninterruptibly();
                same(latch.getCount(), 0L);
                ended.set(Thread.interrupted() ? 1 : 2);
            });
            until(latch::hasQueuedThreads);
            waiter.interrupt();
            latch.countDown();
            LockSupport.parkNanos(20_000_000);
            check(latch.hasQueuedThreads());
            same(ended.get(), 0);
            latch.countDown();
            waiter.join();
            same(ended.get(), 1);
            keep("uninterruptible-latch", latch.history());
        }
    }

    /** What the JDK's latch doesn't tell, that none of it is recorded, and that it takes a seat. */
    static void questions() throws Exception {
        try (AqsCountDownLatch latch = new AqsCountDownLatch(1);
                AqsLock lock = new AqsLock(new AqsOptions().keepHistory().mostEntries(16).threads(1))) {
            Thread waiter = start(latch::await);
            while (!latch.hasQueuedThreads()) {
                Thread.sleep(1);
            }
            same(latch.getQueueLength(), 1);
            latch.countDown();
            waiter.join();
            same(latch.getQueueLength(), 0);
            lock.lock();
            String before = lock.history();
            for (int i = 0; i < 30; i++) {
                check(lock.isLocked() && !lock.hasQueuedThreads());
            }
            same(lock.history(), before);
            start(() -> failing("AQS_TOO_MANY_THREADS", 13, lock::isLocked)).join();
            start(() -> failing("AQS_TOO_MANY_THREADS", 13, lock::getQueueLength)).join();
            start(() -> failing("AQS_TOO_MANY_THREADS", 13, lock::tryLock)).join();
            start(() -> failing("AQS_TOO_MANY_THREADS", 13, lock::history)).join();
            start(() -> failing("AQS_TOO_MANY_THREADS", 13, lock::trim)).join();
            lock.unlock();
            start(() -> check(!lock.isLocked())).join();
        }
        try (AqsSemaphore owing = new AqsSemaphore(-1)) {
            same(owing.drainPermits(), 0); // the JDK's class would return -1, and have 0 permits then
            same(owing.availablePermits(), -1);
        }
    }

    /** The one seat of an object is another thread's. Each call says so, and changes nothing. */
    static void withoutASeat() throws Exception {
        AqsOptions one = new AqsOptions().threads(1);
        try (AqsSemaphore permits = new AqsSemaphore(0, one);
                AqsCountDownLatch latch = new AqsCountDownLatch(1, one)) {
            List<Thread> waiters = new ArrayList<>();
            for (Work wait : Arrays.<Work>asList(permits::acquire, latch::await)) {
                waiters.add(start(() -> throwing(InterruptedException.class, () -> whenASeatIsFree(wait))));
            }
            until(() -> hasNoSeat(permits) && hasNoSeat(latch));
            try {
                for (Work call : Arrays.<Work>asList(
                        permits::availablePermits, permits::drainPermits, permits::release, permits::tryAcquire,
                        latch::getCount, latch::countDown)) {
                    failing("AQS_TOO_MANY_THREADS", 13, call);
                }
                check(!permits.tryAcquire(10, TimeUnit.MILLISECONDS) && !latch.await(10, TimeUnit.MILLISECONDS));
            } finally {
                waiters.forEach(Thread::interrupt);
            }
            join(waiters);
            same(permits.availablePermits(), 0);
            same(latch.getCount(), 1L);
        }
    }

    /** Makes a call again while a question of another thread takes the seat. */
    static void whenASeatIsFree(Work call) throws Exception {
        for (;;) {
            try {
                call.run();
                return;
            } catch (AqsException taken) {
                Thread.yield();
            }
        }
    }

    static boolean hasNoSeat(AqsObject object) {
        try {
            return object.getQueueLength() < 0;
        } catch (AqsException none) {
            return true;
        }
    }

    /** A call of an object that is closed leaves nothing: a later interrupt ends no later call. */
    static void afterARefusal(Work call) throws Exception {
        throwing(IllegalStateException.class, call);
        Thread interrupter = start(Thread.currentThread()::interrupt);
        while (interrupter.isAlive()) {
            Thread.yield();
        }
        check(Thread.interrupted());
        try (AqsSemaphore permits = new AqsSemaphore(2)) {
            permits.acquire();
            check(permits.tryAcquire(1, TimeUnit.SECONDS));
        }
    }

    /** An object in which threads wait stays open, and a closed one says so. */
    static void closes() throws Exception {
        AqsLock lock = new AqsLock();
        Condition met = lock.newCondition();
        AqsSemaphore permits = new AqsSemaphore(0);
        lock.lock();
        List<Thread> waiters = Arrays.asList(start(() -> inLock(lock, () -> { })), start(permits::acquire));
        until(() -> lock.hasQueuedThreads() && permits.hasQueuedThreads());
        throwing(IllegalStateException.class, lock::close);
        throwing(IllegalStateException.class, permits::close);
        lock.unlock();
        permits.release();
        join(waiters);
        Thread waiter = start(() -> inLock(lock, met::await));
        until(() -> asleep(lock, met));
        throwing(IllegalStateException.class, lock::close);
        inLock(lock, met::signal);
        waiter.join();
        lock.close();
        lock.close();
        permits.close();
        throwing(IllegalStateException.class, lock::lock);
        throwing(IllegalStateException.class, permits::release);
    }

    static void inLock(AqsLock lock, Work call) throws Exception {
        lock.lock();
        try {
            call.run();
        } finally {
            lock.unlock();
        }
    }

    static boolean asleep(AqsLock lock, Condition condition) {
        lock.lock();
        try {
            return lock.hasWaiters(condition);
        } finally {
            lock.unlock();
        }
    }

    static void outOfRange(String words, AqsOptions how) {
        try {
            new AqsSemaphore(1, how).close();
        } catch (IllegalArgumentException fault) {
            same(fault.getMessage(), "aqs: " + words);
            return;
        }
        throw new AssertionError(words);
    }

    /** Each seat has the name of its thread. */
    static void names() throws Exception {
        try (AqsLock lock = new AqsLock(new AqsOptions().keepHistory().fair())) {
            lock.lock();
            Thread waiter = new Thread(() -> {
                lock.lock();
                lock.unlock();
            }, "waits-for-it");
            waiter.start();
            until(lock::hasQueuedThreads);
            lock.unlock();
            waiter.join();
            check(lock.names().contains(" waits-for-it\n"));
            same(lock.names().split("\n").length, 2);
        }
    }

    /** Two conditions, three threads that put and three that take, and a signal for each item. */
    static void boundedBuffer() throws Exception {
        int each = 20_000, room = 8;
        long[] sums = new long[3];
        java.util.ArrayDeque<Integer> items = new java.util.ArrayDeque<>();
        try (AqsLock lock = new AqsLock()) {
            Condition notEmpty = lock.newCondition(), notFull = lock.newCondition();
            List<Thread> threads = new ArrayList<>();
            for (int i = 0; i < 3; i++) {
                int number = i;
                threads.add(start(() -> {
                    for (int item = 0; item < each; item++) {
                        lock.lock();
                        while (items.size() == room) {
                            notFull.await();
                        }
                        items.add(item);
                        notEmpty.signal();
                        lock.unlock();
                    }
                }));
                threads.add(start(() -> {
                    for (int item = 0; item < each; item++) {
                        lock.lock();
                        while (items.isEmpty()) {
                            notEmpty.await();
                        }
                        sums[number] += items.remove();
                        notFull.signal();
                        lock.unlock();
                    }
                }));
            }
            join(threads);
        }
        same(sums[0] + sums[1] + sums[2], 3L * each * (each - 1) / 2);
    }

    static void options() throws Exception {
        refused(() -> new AqsLock(new AqsOptions().threads(257)));
        refused(() -> new AqsLock(new AqsOptions().threads(-1)));
        refused(() -> new AqsLock(new AqsOptions().threads(65540)));
        refused(() -> new AqsLock(new AqsOptions().conditions(17)));
        refused(() -> new AqsReadWriteLock(new AqsOptions().conditions(257)));
        refused(() -> new AqsReadWriteLock(new AqsOptions().conditions(-1)));
        refused(() -> new AqsSemaphore(1, new AqsOptions().mostEntries(1)));
        refused(() -> new AqsSemaphore(1, new AqsOptions().conditions(1)));
        refused(() -> new AqsSemaphore(1, new AqsOptions().threads(257)));
        refused(() -> new AqsSemaphore(1, new AqsOptions().mostEntries(-1)));
        outOfRange("threads must be 1 to 256, not 257", new AqsOptions().threads(257));
        outOfRange("threads must be 1 to 256, not -1", new AqsOptions().threads(-1));
        outOfRange("conditions must be 1 to 16, not 17", new AqsOptions().conditions(17));
        outOfRange("mostEntries must be 16 to 2147483647, not 15", new AqsOptions().mostEntries(15));
        try (AqsLock usual = new AqsLock(new AqsOptions().threads(0).conditions(0).mostEntries(0))) {
            check(usual.history().startsWith("aqs-history 1 lock nonfair seats 256 conditions 16 cap 1024"));
        }
        refused(() -> new AqsCountDownLatch(-1));
        refused(() -> new AqsCountDownLatch(1, new AqsOptions().threads(257)));
        refused(() -> new AqsCyclicBarrier(0));
        refused(() -> new AqsCyclicBarrier(-1));
        refused(() -> new AqsCyclicBarrier(1, null, new AqsOptions().threads(257)));
        try (AqsReadWriteLock fair = new AqsReadWriteLock(new AqsOptions().fair())) {
            check(fair.isFair());
            same(fair.policy(), AqsPolicy.FAIR);
        }
        AqsLock lock = new AqsLock(new AqsOptions().strict());
        Condition met = lock.newCondition();
        check(lock.isFair());
        same(lock.policy(), AqsPolicy.STRICT);
        lock.close();
        lock.close();
        check(lock.toString().endsWith("[Closed]"));
        throwing(IllegalStateException.class, lock::lock);
        throwing(IllegalStateException.class, lock::tryLock);
        throwing(IllegalStateException.class, met::signal);
        throwing(IllegalStateException.class, lock::history);
        throwing(IllegalStateException.class, lock::isLocked);
        throwing(IllegalStateException.class, lock::hasQueuedThreads);
        throwing(IllegalStateException.class, lock::lockInterruptibly);
        throwing(IllegalStateException.class, () -> lock.tryLock(1, TimeUnit.MILLISECONDS));
        throwing(IllegalStateException.class, lock::trim);
        AqsSemaphore permits = new AqsSemaphore(1);
        permits.close();
        throwing(IllegalStateException.class, permits::availablePermits);
        afterARefusal(permits::acquire);
        afterARefusal(() -> permits.tryAcquire(1, TimeUnit.SECONDS));
        AqsCyclicBarrier barrier = new AqsCyclicBarrier(1);
        barrier.close();
        barrier.close();
        throwing(IllegalStateException.class, barrier::await);
        throwing(IllegalStateException.class, barrier::getNumberWaiting);
        try (AqsSemaphore full = new AqsSemaphore(0, new AqsOptions().keepHistory().mostEntries(16))) {
            check(!full.isFair());
            same(full.policy(), AqsPolicy.NONFAIR);
            full.release(100);
            full(() -> {
                for (int i = 0; i < 16; i++) {
                    full.acquire();
                }
            });
            check(full.trim() >= 15);
            check(full.tryAcquire());
        }
    }

    static void barriers() throws Exception {
        AtomicInteger met = new AtomicInteger();
        List<String> order = Collections.synchronizedList(new ArrayList<>());
        AqsCyclicBarrier[] itself = new AqsCyclicBarrier[1];
        Runnable counting = () -> {
            met.incrementAndGet();
            same(itself[0].getNumberWaiting(), 4);
        };
        try (AqsCyclicBarrier barrier = new AqsCyclicBarrier(4, counting, kept(true))) {
            itself[0] = barrier;
            List<Thread> threads = new ArrayList<>();
            AtomicInteger sum = new AtomicInteger();
            for (int t = 0; t < 4; t++) {
                threads.add(start(() -> {
                    for (int i = 0; i < 100; i++) {
                        sum.addAndGet(barrier.await());
                        check(met.get() > i);
                    }
                }));
            }
            join(threads);
            same(met.get(), 100);
            same(sum.get(), 100 * (0 + 1 + 2 + 3));
            keep("barrier", barrier.history());
        }
        actionThatFails(() -> {
            order.add("action");
            throw new IllegalStateException();
        }, IllegalStateException.class);
        same(order.size(), 1);
        actionThatFails(() -> {
            throw new StackOverflowError();
        }, StackOverflowError.class);
    }

    /** Whatever an action throws breaks the barrier. */
    static void actionThatFails(Runnable action, Class<? extends Throwable> fault) throws Exception {
        try (AqsCyclicBarrier barrier = new AqsCyclicBarrier(2, action)) {
            Thread other = start(() -> throwing(BrokenBarrierException.class, barrier::await));
            while (barrier.getNumberWaiting() < 1) {
                Thread.sleep(1);
            }
            throwing(fault, barrier::await);
            if (!barrier.isBroken()) {
                barrier.reset(); // or the other waits for good
                throw new AssertionError("the barrier is whole");
            }
            other.join();
        }
    }

    /** An interrupt that comes while the last thread opens the barrier stays set, and breaks nothing. */
    static void lateInterrupt() throws Exception {
        Thread[] waiter = new Thread[1];
        AtomicInteger kept = new AtomicInteger();
        Runnable interrupting = () -> {
            waiter[0].interrupt();
            LockSupport.parkNanos(50_000_000); // by then the wait has only to get the lock again
        };
        try (AqsCyclicBarrier barrier = new AqsCyclicBarrier(2, interrupting)) {
            waiter[0] = start(() -> {
                same(barrier.await(), 1);
                kept.set(Thread.interrupted() ? 1 : 2);
            });
            while (barrier.getNumberWaiting() < 1) {
                Thread.sleep(1);
            }
            same(barrier.await(), 0);
            waiter[0].join();
            same(kept.get(), 1);
            check(!barrier.isBroken());
        }
    }

    /** An interrupt reaches its own thread, also if there are more threads than a byte has numbers. */
    static void manyThreads() throws Exception {
        CountDownLatch over = new CountDownLatch(1);
        try (AqsSemaphore permits = new AqsSemaphore(0)) {
            List<Thread> threads = new ArrayList<>();
            AtomicInteger called = new AtomicInteger(), ended = new AtomicInteger();
            for (int i = 0; i < 256; i++) {
                threads.add(start(() -> {
                    check(!permits.tryAcquire(0, TimeUnit.SECONDS));
                    called.incrementAndGet();
                    over.await();
                }));
            }
            until(() -> called.get() == 256);
            for (int i = 0; i < 3; i++) {
                Thread waiter = start(() -> {
                    throwing(InterruptedException.class, permits::acquire);
                    ended.incrementAndGet();
                });
                until(permits::hasQueuedThreads);
                waiter.interrupt();
                waiter.join(30_000);
                same(ended.get(), i + 1);
            }
            over.countDown();
            join(threads);
        }
    }

    /** One that comes while the last thread's action fails stays set too, though the barrier is broken. */
    static void lateInterruptAtABrokenBarrier() throws Exception {
        Thread[] waiter = new Thread[1];
        AtomicInteger kept = new AtomicInteger();
        Runnable failing = () -> {
            waiter[0].interrupt();
            LockSupport.parkNanos(50_000_000);
            throw new IllegalStateException();
        };
        try (AqsCyclicBarrier barrier = new AqsCyclicBarrier(2, failing)) {
            waiter[0] = start(() -> {
                throwing(BrokenBarrierException.class, barrier::await);
                kept.set(Thread.interrupted() ? 1 : 2);
            });
            while (barrier.getNumberWaiting() < 1) {
                Thread.sleep(1);
            }
            throwing(IllegalStateException.class, barrier::await);
            waiter[0].join();
            same(kept.get(), 1);
        }
    }

    /** A time that is up while the last thread's action runs ends nothing: all have come. */
    static void lateTime() throws Exception {
        long end = System.nanoTime() + 2_100_000_000L;
        Runnable long_ = () -> {
            while (System.nanoTime() < end) {
                LockSupport.parkNanos(10_000_000);
            }
        };
        try (AqsCyclicBarrier barrier = new AqsCyclicBarrier(2, long_)) {
            Thread waiter = start(() -> same(barrier.await(2, TimeUnit.SECONDS), 1));
            while (barrier.getNumberWaiting() < 1) {
                Thread.sleep(1);
            }
            same(barrier.await(), 0);
            waiter.join();
            check(!barrier.isBroken());
        }
    }

    public static void main(String[] words) throws Exception {
        folder = Paths.get(words[0]);
        options();
        names();
        closes();
        boundedBuffer();
        questions();
        withoutASeat();
        sides();
        policies(new AqsOptions(), true, true);
        policies(new AqsOptions().fair(), true, false);
        policies(new AqsOptions().strict(), false, false);
        refusals();
        partsOfAMillisecond();
        holdsOfEach();
        conditions();
        sharedSignals();
        uninterruptibleLatch();
        barriers();
        lateInterrupt();
        manyThreads();
        lateInterruptAtABrokenBarrier();
        lateTime();
        interruptedLocks(false);
        interruptedLocks(true);
        System.out.println("java: good");
    }
}
