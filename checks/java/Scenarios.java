import java.io.BufferedReader;
import java.io.InputStreamReader;
import java.io.PrintStream;
import java.nio.charset.StandardCharsets;
import java.util.ArrayList;
import java.util.Arrays;
import java.util.Collection;
import java.util.Collections;
import java.util.List;
import java.util.Locale;
import java.util.concurrent.Callable;
import java.util.concurrent.CountDownLatch;
import java.util.concurrent.Semaphore;
import java.util.concurrent.TimeUnit;
import java.util.concurrent.locks.Condition;
import java.util.concurrent.locks.Lock;
import java.util.concurrent.locks.LockSupport;
import java.util.concurrent.locks.ReentrantLock;
import java.util.concurrent.locks.ReentrantReadWriteLock;

/**
 * Plays scenarios on the synchronisers of java.util.concurrent: java Scenarios.java MILLISECONDS.
 *
 * <p>Standard input has scenarios: a line with the object, a line for each call, and a line "end". Each seat
 * is a thread. The calls are made one at a time. The next one begins when each thread is idle or parked, and
 * nobody is on the way to acquire. Then a line tells which calls ended and how, and what the object's observers
 * say; scenarios.py writes the same line of the answers of the rules. Before that, a line names the JDK, and one
 * says whether it can hold threads, and has the limit of 65535 holds.
 *
 * <p>A timeout is 0; "short", which is MILLISECONDS, and nothing else happens until it is over; or "long",
 * which never ends. This file uses the API of Java SE 8 alone.
 */
public final class Scenarios {
    private static final long PATIENCE = TimeUnit.SECONDS.toNanos(2);
    private static final int MOST_READS = 65535;
    private static final long STACK = 1 << 17;
    private static long shortTime;

    private final Subject subject;
    private final Worker[] workers;

    private Scenarios(Subject subject, Worker[] workers) {
        this.subject = subject;
        this.workers = workers;
    }

    public static void main(String[] words) throws Exception {
        shortTime = Long.parseLong(words[0]);
        BufferedReader in = new BufferedReader(new InputStreamReader(System.in, StandardCharsets.US_ASCII));
        PrintStream out = new PrintStream(System.out, false, "US-ASCII");
        out.println(System.getProperty("java.vm.name") + " " + System.getProperty("java.runtime.version"));
        boolean hasLimit = TwoLocks.isAtMost(MOST_READS);
        out.println("can" + (Held.isPossible() ? " hold" : "") + (hasLimit ? " limit" : ""));
        List<Worker> idle = new ArrayList<>();
        for (String header = in.readLine(); header != null; header = in.readLine()) {
            String[] part = header.split(" ");
            Worker[] workers = new Worker[Integer.parseInt(part[Arrays.asList(part).indexOf("seats") + 1])];
            for (int seat = 0; seat < workers.length; seat++) {
                workers[seat] = idle.isEmpty() ? new Worker() : idle.remove(idle.size() - 1);
            }
            Scenarios scenario = new Scenarios(Subject.of(part), workers);
            scenario.begin();
            for (String call = in.readLine(); !call.equals("end"); call = in.readLine()) {
                out.println(scenario.made(call.split(" ")));
            }
            out.flush();
            idle.addAll(scenario.windUp());
        }
        System.exit(0);
    }

    private void begin() {
        for (int seat = 0; seat < workers.length; seat++) {
            workers[seat].begin(seat, subject);
        }
    }

    /** Makes a call, and returns what it led to. */
    private String made(String[] words) {
        if (words[0].equals("interrupt")) {
            workers[Integer.parseInt(words[1])].interruptOrNote();
            settle(null);
            return told();
        }
        if (words[0].equals("hold")) {
            return held(workers[Integer.parseInt(words[1])]);
        }
        if (words[0].equals("go")) {
            goOn();
            return told();
        }
        Worker worker = workers[Integer.parseInt(words[0])];
        if (worker.isBusy()) {
            return "busy";
        }
        String[] call = Arrays.copyOfRange(words, 1, words.length);
        worker.ask(call, () -> subject.made(call));
        settle(call[call.length - 1].equals("short") ? worker : null);
        return told();
    }

    /** Stops a thread that waits: it does not retry until all go on, so that others may barge. */
    private String held(Worker worker) {
        if (!worker.isBusy() || worker.isHeld) {
            return "busy";
        }
        Held.SUSPEND.call(worker);
        worker.isHeld = true;
        return told();
    }

    private void goOn() {
        for (Worker worker : workers) {
            if (worker.isHeld) {
                worker.isHeld = false;
                Held.RESUME.call(worker);
            }
        }
        settle(null);
    }

    /** How the thread of a JDK is stopped, which JDK 20 and later can't. */
    private enum Held {
        SUSPEND, RESUME;

        void call(Thread thread) {
            try {
                Thread.class.getMethod(name().toLowerCase(Locale.ROOT)).invoke(thread);
            } catch (ReflectiveOperationException error) {
                throw new IllegalStateException(error);
            }
        }

        static boolean isPossible() {
            Thread thread = new Thread(() -> { });
            try {
                SUSPEND.call(thread);
                RESUME.call(thread);
                return true;
            } catch (IllegalStateException error) {
                return false;
            }
        }
    }

    /** How a call ended. */
    private static String outcome(Callable<String> call) {
        try {
            return call.call();
        } catch (InterruptedException error) {
            return "interrupted";
        } catch (IllegalMonitorStateException error) {
            return "illegal";
        } catch (Error error) {
            return String.valueOf(error.getMessage()).startsWith("Maximum ") ? "limit" : error.toString();
        } catch (Exception error) {
            return error.toString();
        }
    }

    /** Waits until all is quiet, and until the short time of a worker is over. */
    private void settle(Worker timed) {
        long end = System.nanoTime() + PATIENCE;
        for (int calm = 0, looks = 0; calm < 2 && System.nanoTime() < end; looks++) {
            calm = isQuiet(timed) ? calm + 1 : 0;
            if (calm == 0 && looks > 50) {
                LockSupport.parkNanos(20_000);
            } else if (calm < 2) {
                Thread.yield();
            }
        }
    }

    /**
     * Whether nothing can change by itself. A parked thread may have been unparked and not run yet, so the
     * observers are asked too: nobody who waits could acquire, or was interrupted without having noticed.
     */
    private boolean isQuiet(Worker timed) {
        if (timed != null && timed.isBusy() && !subject.isBack(timed)) {
            return false;
        }
        boolean anyWaits = false;
        for (Worker worker : workers) {
            if (!worker.isQuiet()) {
                return false;
            }
            anyWaits |= worker.isBusy() && !worker.isHeld;
        }
        return !anyWaits || !subject.isFirstAboutToGo();
    }

    private String told() {
        List<String> parts = new ArrayList<>();
        for (Worker worker : workers) {
            String end = worker.takeEnd();
            if (end != null) {
                parts.add(worker.seat + " " + end);
            }
        }
        String ended = parts.isEmpty() ? "nothing" : String.join(", ", parts);
        return ended + subject.shown(workers) + " | flags" + seats(flagged());
    }

    private List<Worker> flagged() {
        List<Worker> flagged = new ArrayList<>();
        for (Worker worker : workers) {
            if (worker.isFlagged()) {
                flagged.add(worker);
            }
        }
        return flagged;
    }

    private static String seats(Collection<? extends Thread> threads) {
        StringBuilder text = new StringBuilder();
        for (Thread thread : threads) {
            text.append(' ').append(((Worker) thread).seat);
        }
        return text.length() == 0 ? " -" : text.toString();
    }

    /** Ends the calls that still wait, as far as that goes. Returns the workers that can be used again. */
    private List<Worker> windUp() {
        goOn();
        for (int round = 0; round <= 2 * workers.length && isAnyBusy(); round++) {
            for (Worker worker : workers) {
                if (worker.isBusy()) {
                    worker.interrupt();
                } else {
                    worker.ask(new String[] {"close"}, () -> subject.closed());
                }
                settle(null);
            }
        }
        List<Worker> idle = new ArrayList<>();
        for (Worker worker : workers) {
            if (!worker.isBusy()) {
                idle.add(worker);
            }
        }
        return idle;
    }

    private boolean isAnyBusy() {
        for (Worker worker : workers) {
            if (worker.isBusy()) {
                return true;
            }
        }
        return false;
    }

    /** A thread that makes the calls of a seat. */
    private static final class Worker extends Thread {
        private volatile Callable<String> task;
        private volatile boolean isInside;
        private volatile String[] words;
        private volatile String end;
        private volatile String holds;
        /** The interrupt flag while the worker is idle, since a thread with its flag set can't park. */
        private volatile boolean flag;
        /** Whether the driver has stopped this thread. */
        private volatile boolean isHeld;

        private int seat;
        private Subject subject;

        Worker() {
            super(null, null, "seat", STACK);
            setDaemon(true);
            start();
        }

        void begin(int seat, Subject subject) {
            this.seat = seat;
            this.subject = subject;
            flag = false;
            end = null;
            holds = subject.noHolds();
        }

        void ask(String[] words, Callable<String> task) {
            this.words = words;
            isInside = false;
            this.task = task;
            LockSupport.unpark(this);
        }

        @Override
        public void run() {
            for (;;) {
                while (task == null) {
                    LockSupport.park(this);
                }
                if (flag) {
                    interrupt();
                } else {
                    Thread.interrupted();
                }
                isInside = true;
                String how = outcome(task);
                flag = Thread.interrupted();
                holds = subject.holds();
                end = how;
                task = null;
            }
        }

        boolean isBusy() {
            return task != null;
        }

        boolean isQuiet() {
            if (task == null || isHeld) {
                return true;
            }
            State state = getState();
            return isInside && (state == State.WAITING || state == State.TIMED_WAITING) && !isInterrupted()
                && task != null;
        }

        boolean isFlagged() {
            return task == null ? flag : isInterrupted();
        }

        void interruptOrNote() {
            if (task == null) {
                flag = true;
            } else {
                interrupt();
            }
        }

        String takeEnd() {
            String taken = end;
            end = null;
            return taken;
        }

        String holdsOrBusy() {
            return task == null ? holds : ".";
        }

        /** Runs an observer that only this idle worker may call, and returns what it said. */
        String observed(Callable<String> observer) {
            boolean flagged = flag;
            String kept = end;
            flag = false;
            ask(new String[] {"observe"}, observer);
            while (isBusy()) {
                Thread.yield();
            }
            String said = end;
            flag = flagged;
            end = kept;
            return said;
        }
    }

    /** The object of a scenario. */
    private abstract static class Subject {
        static Subject of(String[] part) {
            boolean isFair = part[1].equals("fair");
            int last = Integer.parseInt(part[part.length - 1]);
            switch (part[0]) {
                case "lock":
                    return new OneLock(isFair, last);
                case "rw":
                    return new TwoLocks(isFair, last);
                case "semaphore":
                    return new Permits(isFair, last);
                default:
                    return new Latch(last);
            }
        }

        /** Makes a call in the calling thread, as often as it says, and returns how the last one ended. */
        final String made(String[] words) throws InterruptedException {
            int star = Arrays.asList(words).indexOf("*");
            for (int left = star < 0 ? 1 : Integer.parseInt(words[star + 1]); left > 1; left--) {
                call(words);
            }
            return call(words);
        }

        abstract String call(String[] words) throws InterruptedException;

        /** Whether a thread that waits is about to acquire. */
        abstract boolean isFirstAboutToGo();

        /** The first in the queue, unless there is none or it is held. */
        static Worker first(Collection<Thread> fromTheEnd) {
            Worker first = null;
            for (Thread thread : fromTheEnd) {
                first = (Worker) thread;
            }
            return first == null || first.isHeld ? null : first;
        }

        abstract String shown(Worker[] workers);

        /** Releases what the calling thread holds, and what makes others wait. */
        abstract String closed();

        /** Whether the time of a call that still goes on is over: it waits to acquire the lock again. */
        boolean isBack(Worker worker) {
            return false;
        }

        String holds() {
            return "";
        }

        String noHolds() {
            return "0";
        }

        static String got(boolean isGot) {
            return isGot ? "got" : "no";
        }

        static long time(String word) {
            return word.equals("0") ? 0 : word.equals("short") ? shortTime : TimeUnit.DAYS.toMillis(1);
        }

        static List<Thread> inOrder(Collection<Thread> fromTheEnd) {
            List<Thread> threads = new ArrayList<>(fromTheEnd);
            Collections.reverse(threads);
            return threads;
        }
    }

    /** What a lock and a read-write lock have in common. */
    private abstract static class Owned extends Subject {
        Condition[] conditions;

        void open(Lock lock, int count) {
            conditions = new Condition[count];
            for (int at = 0; at < count; at++) {
                conditions[at] = lock.newCondition();
            }
        }

        abstract Lock lockOf(String mode);

        abstract Thread owner();

        abstract Collection<Thread> queued();

        abstract Collection<Thread> asleep(Condition condition);

        @Override
        String call(String[] words) throws InterruptedException {
            switch (words[0]) {
                case "acquire":
                    lockOf(words[1]).lock();
                    return "got";
                case "acquire-interruptible":
                    lockOf(words[1]).lockInterruptibly();
                    return "got";
                case "acquire-timed":
                    return got(lockOf(words[1]).tryLock(time(words[3]), TimeUnit.MILLISECONDS));
                case "try":
                    return got(lockOf(words[1]).tryLock());
                case "give":
                    lockOf(words[1]).unlock();
                    return "done";
                default:
                    return onCondition(words, conditions[Integer.parseInt(words[1])]);
            }
        }

        private String onCondition(String[] words, Condition condition) throws InterruptedException {
            switch (words[0]) {
                case "await":
                    condition.awaitUninterruptibly();
                    return "done";
                case "await-interruptible":
                    condition.await();
                    return "done";
                case "await-timed":
                    return condition.await(time(words[2]), TimeUnit.MILLISECONDS) ? "done" : "no";
                case "signal":
                    condition.signal();
                    return "done";
                case "signalall":
                    condition.signalAll();
                    return "done";
                default:
                    throw new IllegalArgumentException(words[0]);
            }
        }

        @Override
        boolean isBack(Worker worker) {
            return worker.words[0].equals("await-timed") && queued().contains(worker);
        }

        @Override
        String shown(Worker[] workers) {
            StringBuilder text = new StringBuilder();
            for (Worker worker : workers) {
                text.append(' ').append(worker.holdsOrBusy());
            }
            Worker owner = (Worker) owner();
            String asleep = owner == null || owner.isBusy() ? " ?" : owner.observed(this::asleep);
            return " | owner " + (owner == null ? "-" : owner.seat) + " | holds" + text + " | line" + line()
                + " | asleep" + asleep;
        }

        String line() {
            return seats(inOrder(queued()));
        }

        private String asleep() {
            StringBuilder text = new StringBuilder();
            for (Condition condition : conditions) {
                text.append(text.length() == 0 ? "" : ",").append(seats(asleep(condition)));
            }
            return text.length() == 0 ? " -" : text.toString();
        }

        void wakeAll() {
            for (Condition condition : conditions) {
                condition.signalAll();
            }
        }
    }

    private static final class OneLock extends Owned {
        private static final class Shown extends ReentrantLock {
            private static final long serialVersionUID = 1;

            Shown(boolean isFair) {
                super(isFair);
            }

            Thread owner() {
                return getOwner();
            }

            Collection<Thread> queued() {
                return getQueuedThreads();
            }

            Collection<Thread> asleep(Condition condition) {
                return getWaitingThreads(condition);
            }
        }

        private final Shown lock;

        OneLock(boolean isFair, int conditions) {
            lock = new Shown(isFair);
            open(lock, conditions);
        }

        @Override
        Lock lockOf(String mode) {
            return lock;
        }

        @Override
        Thread owner() {
            return lock.owner();
        }

        @Override
        Collection<Thread> queued() {
            return lock.queued();
        }

        @Override
        Collection<Thread> asleep(Condition condition) {
            return lock.asleep(condition);
        }

        @Override
        boolean isFirstAboutToGo() {
            return lock.owner() == null && first(lock.queued()) != null;
        }

        @Override
        String holds() {
            return Integer.toString(lock.getHoldCount());
        }

        @Override
        String closed() {
            if (!lock.isLocked()) {
                lock.lock();
            }
            if (lock.isHeldByCurrentThread()) {
                wakeAll();
            }
            while (lock.isHeldByCurrentThread()) {
                lock.unlock();
            }
            return "closed";
        }
    }

    private static final class TwoLocks extends Owned {
        private static final class Shown extends ReentrantReadWriteLock {
            private static final long serialVersionUID = 1;

            Shown(boolean isFair) {
                super(isFair);
            }

            Thread owner() {
                return getOwner();
            }

            Collection<Thread> queued() {
                return getQueuedThreads();
            }

            Collection<Thread> writers() {
                return getQueuedWriterThreads();
            }

            Collection<Thread> asleep(Condition condition) {
                return getWaitingThreads(condition);
            }
        }

        private final Shown lock;

        TwoLocks(boolean isFair, int conditions) {
            lock = new Shown(isFair);
            open(lock.writeLock(), conditions);
        }

        /** Whether a read-write lock has so many read holds, and no more. */
        static boolean isAtMost(int holds) {
            Lock lock = new ReentrantReadWriteLock().readLock();
            for (int held = 0; held < holds; held++) {
                lock.lock();
            }
            return outcome(() -> Subject.got(lock.tryLock())).equals("limit");
        }

        @Override
        Lock lockOf(String mode) {
            return mode.equals("x") ? lock.writeLock() : lock.readLock();
        }

        @Override
        Thread owner() {
            return lock.owner();
        }

        @Override
        Collection<Thread> queued() {
            return lock.queued();
        }

        @Override
        Collection<Thread> asleep(Condition condition) {
            return lock.asleep(condition);
        }

        @Override
        boolean isFirstAboutToGo() {
            Worker first = first(lock.queued());
            if (first == null || lock.owner() != null) {
                return false;
            }
            int readers = lock.getReadLockCount();
            return lock.writers().contains(first) ? readers == 0 : readers < MOST_READS;
        }

        @Override
        String line() {
            Collection<Thread> writers = lock.writers();
            StringBuilder text = new StringBuilder();
            for (Thread thread : inOrder(lock.queued())) {
                text.append(' ').append(((Worker) thread).seat).append(writers.contains(thread) ? 'x' : 's');
            }
            return text.length() == 0 ? " -" : text.toString();
        }

        @Override
        String shown(Worker[] workers) {
            return " | readers " + lock.getReadLockCount() + super.shown(workers);
        }

        @Override
        String holds() {
            return lock.getWriteHoldCount() + "/" + lock.getReadHoldCount();
        }

        @Override
        String noHolds() {
            return "0/0";
        }

        @Override
        String closed() {
            if (!lock.isWriteLocked() && lock.getReadLockCount() == 0) {
                lock.writeLock().lock();
            }
            if (lock.isWriteLockedByCurrentThread()) {
                wakeAll();
            }
            while (lock.isWriteLockedByCurrentThread()) {
                lock.writeLock().unlock();
            }
            while (lock.getReadHoldCount() > 0) {
                lock.readLock().unlock();
            }
            return "closed";
        }
    }

    private static final class Permits extends Subject {
        private static final class Shown extends Semaphore {
            private static final long serialVersionUID = 1;

            Shown(int permits, boolean isFair) {
                super(permits, isFair);
            }

            Collection<Thread> queued() {
                return getQueuedThreads();
            }
        }

        private final Shown permits;

        Permits(boolean isFair, int free) {
            permits = new Shown(free, isFair);
        }

        @Override
        String call(String[] words) throws InterruptedException {
            int amount = words.length > 2 ? Integer.parseInt(words[2]) : 1;
            switch (words[0]) {
                case "acquire":
                    permits.acquireUninterruptibly(amount);
                    return "got";
                case "acquire-interruptible":
                    permits.acquire(amount);
                    return "got";
                case "acquire-timed":
                    return got(permits.tryAcquire(amount, time(words[3]), TimeUnit.MILLISECONDS));
                case "try":
                    return got(permits.tryAcquire(amount));
                case "give":
                    permits.release(amount);
                    return "done";
                case "drain":
                    return "drained " + permits.drainPermits();
                default:
                    throw new IllegalArgumentException(words[0]);
            }
        }

        private static int wanted(Thread thread) {
            return Integer.parseInt(((Worker) thread).words[2]);
        }

        @Override
        boolean isFirstAboutToGo() {
            Worker first = first(permits.queued());
            return first != null && permits.availablePermits() - wanted(first) >= 0;
        }

        @Override
        String shown(Worker[] workers) {
            return " | free " + permits.availablePermits() + " | line" + seats(inOrder(permits.queued()));
        }

        @Override
        String closed() {
            List<Thread> line = inOrder(permits.queued());
            if (!line.isEmpty()) {
                int missing = wanted(line.get(0)) - permits.availablePermits();
                permits.release(missing < 0 ? Integer.MAX_VALUE : missing);
            }
            return "closed";
        }
    }

    private static final class Latch extends Subject {
        private final CountDownLatch latch;

        Latch(int count) {
            latch = new CountDownLatch(count);
        }

        @Override
        String call(String[] words) throws InterruptedException {
            switch (words[0]) {
                case "acquire-interruptible":
                    latch.await();
                    return "got";
                case "acquire-timed":
                    return got(latch.await(time(words[3]), TimeUnit.MILLISECONDS));
                case "give":
                    latch.countDown();
                    return "done";
                default:
                    throw new IllegalArgumentException(words[0]);
            }
        }

        @Override
        boolean isFirstAboutToGo() {
            return latch.getCount() == 0;
        }

        @Override
        String shown(Worker[] workers) {
            return " | count " + latch.getCount();
        }

        @Override
        String closed() {
            return "closed";
        }
    }
}
