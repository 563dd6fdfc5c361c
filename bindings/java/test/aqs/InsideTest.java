package aqs;

import java.io.IOException;
import java.io.InputStream;
import java.lang.invoke.MethodHandle;
import java.lang.ref.WeakReference;
import java.lang.reflect.Field;
import java.net.URL;
import java.net.URLClassLoader;
import java.nio.charset.StandardCharsets;
import java.nio.file.Files;
import java.nio.file.Paths;
import java.util.Arrays;
import java.util.Objects;
import java.util.concurrent.CountDownLatch;
import java.util.concurrent.TimeUnit;
import java.util.concurrent.atomic.AtomicInteger;

/**
 * What can't be seen from outside: memory that is freed, late interrupts, and the question for virtual
 * threads. It is run with -Xcomp: compiled code doesn't keep what it won't use again.
 */
final class InsideTest {
    private InsideTest() {}

    static void check(boolean fact) {
        if (!fact) {
            throw new AssertionError();
        }
    }

    interface Fact {
        boolean holds();
    }

    /** Collects until the fact holds, for a while. */
    static void becomes(Fact fact) throws InterruptedException {
        for (int i = 0; i < 1000 && !fact.holds(); i++) {
            System.gc();
            Thread.sleep(10);
        }
        check(fact.holds());
    }

    /** The thread that frees what nobody can reach. */
    static Thread cleaner() {
        for (Thread thread : Thread.getAllStackTraces().keySet()) {
            if (thread.getName().equals("aqs-cleaner")) {
                return thread;
            }
        }
        throw new AssertionError("no aqs-cleaner");
    }

    /** What nobody closes and nobody can reach is freed, also after somebody has interrupted who frees it. */
    static void unreachable() throws InterruptedException {
        int before = Memory.live();
        check(cleaner().isDaemon() && cleaner().getContextClassLoader() == null);
        cleaner().interrupt();
        Thread.sleep(20);
        check(cleaner().isAlive());
        for (int i = 0; i < 50; i++) {
            new AqsLock(new AqsOptions().threads(8)).newCondition();
            new AqsReadWriteLock(new AqsOptions().threads(8)).readLock();
            new AqsSemaphore(1, new AqsOptions().threads(8)).tryAcquire();
            new AqsCountDownLatch(1, new AqsOptions().threads(8)).countDown();
        }
        AqsLock kept = new AqsLock();
        new AqsLock().close();
        becomes(() -> Memory.live() == before + 1);
        kept.lock();
        kept.unlock();
        kept.close();
        check(Memory.live() == before);
    }

    /** What a condition, a side or a waiting call can reach isn't. */
    static void reachable() throws InterruptedException {
        int before = Memory.live();
        java.util.concurrent.locks.Condition met = new AqsLock().newCondition();
        java.util.concurrent.locks.Lock side = new AqsReadWriteLock().writeLock();
        AtomicInteger ends = new AtomicInteger();
        Thread[] waiters = new Thread[4];
        for (int i = 0; i < waiters.length; i++) {
            int kind = i;
            waiters[i] = new Thread(() -> {
                try {
                    waitForNothing(kind);
                } catch (InterruptedException end) {
                    ends.incrementAndGet();
                }
            });
            waiters[i].setDaemon(true);
            waiters[i].start();
        }
        becomes(() -> Memory.live() == before + 2 + waiters.length);
        // What is dropped after all of those is found unreachable. They aren't.
        for (int i = 0; i < 3; i++) {
            WeakReference<Object> dropped = new WeakReference<>(new AqsLock());
            becomes(() -> dropped.get() == null && Memory.live() == before + 2 + waiters.length);
        }
        for (Thread waiter : waiters) {
            waiter.interrupt();
            waiter.join();
        }
        check(ends.get() == waiters.length);
        try {
            met.signal();
            check(false);
        } catch (IllegalMonitorStateException good) {
            side.lock();
            side.unlock();
        }
        becomes(() -> Memory.live() == before + 2);
        check(met != null && side != null);
    }

    /** Waits at an object that this call alone can reach. */
    static void waitForNothing(int kind) throws InterruptedException {
        switch (kind) {
            case 0: new AqsSemaphore(0).acquire(); break;
            case 1: new AqsSemaphore(0).tryAcquire(1, 1, TimeUnit.HOURS); break;
            case 2: new AqsCountDownLatch(1).await(); break;
            default:
                AqsLock lock = new AqsLock();
                lock.lock();
                try {
                    lock.newCondition().await();
                } finally {
                    lock.unlock();
                }
        }
    }

    /** An interrupt that is sent when its call has ended interrupts neither that call nor a later one. */
    static void lateInterrupts() throws InterruptedException {
        try (AqsSemaphore permits = new AqsSemaphore(10)) {
            Waits waits = Waits.enter();
            check(!waits.leave());
            waits.wakeup();
            permits.acquire();
            Waits.enter();
            waits.wakeup();
            check(acquired(permits) == Native.OK);
            check(!waits.leave());
            Waits.enter();
            Thread.currentThread().interrupt();
            waits.wakeup();
            check(acquired(permits) == Native.INTERRUPTED);
            check(waits.leave());
            check(Thread.interrupted());
            permits.acquire();
            // One that comes as the permit is taken stays set in the thread, and not in the library.
            Waits.enter();
            check(acquired(permits) == Native.OK);
            Thread.currentThread().interrupt();
            waits.wakeup();
            check(waits.leave());
            check(Thread.interrupted());
            permits.acquire();
            check(permits.availablePermits() == 5);
        }
    }

    static int acquired(AqsSemaphore permits) {
        return Native.interruptible(permits, permits.handle(), Native.WAITS_FOR_PERMITS, 1);
    }

    /** Interrupts are sent while a thread's calls begin and end: none is lost, none is made up. */
    static void racingInterrupts() throws InterruptedException {
        try (AqsSemaphore permits = new AqsSemaphore(0)) {
            AtomicInteger seen = new AtomicInteger();
            CountDownLatch end = new CountDownLatch(1);
            Thread waiter = new Thread(() -> {
                while (end.getCount() > 0) {
                    try {
                        permits.tryAcquire(1, 100, TimeUnit.MICROSECONDS);
                        if (Thread.interrupted()) {
                            seen.incrementAndGet();
                        }
                    } catch (InterruptedException interrupt) {
                        seen.incrementAndGet();
                    }
                }
            });
            waiter.start();
            for (int sent = 0; sent < 2000; sent++) {
                int before = sent;
                waiter.interrupt();
                while (seen.get() == before) {
                    Thread.yield();
                }
                check(seen.get() == before + 1);
            }
            end.countDown();
            waiter.join();
            check(seen.get() == 2000);
        }
    }

    /** The native memory of a history's text is given back: all texts together would be twice what may be left. */
    static void texts() throws IOException {
        try (AqsSemaphore permits = new AqsSemaphore(1)) {
            for (int i = 0; i < 2000; i++) {
                permits.acquireUninterruptibly();
                permits.release();
            }
            long before = resident();
            long length = 0;
            for (int i = 0; i < 20_000; i++) {
                length += permits.history().length();
            }
            check(resident() - before - Runtime.getRuntime().totalMemory() < length / 2);
        }
    }

    private static long resident() throws IOException {
        String pages = new String(Files.readAllBytes(Paths.get("/proc/self/statm")), StandardCharsets.US_ASCII);
        return Long.parseLong(pages.split(" ")[1]) * 4096;
    }

    /**
     * The question that Thread.isVirtual answers, asked of another method, as not each JDK has virtual
     * threads.
     */
    static void refusedThreads() throws InterruptedException {
        MethodHandle question = Callers.question("isDaemon");
        check(Callers.question("isNoSuchThing") == null);
        Thread daemon = new Thread(() -> {});
        Callers.refuse(question, daemon);
        daemon.setDaemon(true);
        try {
            Callers.refuse(question, daemon);
            check(false);
        } catch (UnsupportedOperationException refused) {
            check(refused.getMessage().contains("virtual thread"));
        }
    }

    /** What comes out of a status, in whichever way it comes. */
    static void statuses() {
        String range = "aqs: a number is out of range";
        comesOut(Native.NOT_OWNER, IllegalMonitorStateException.class, null);
        comesOut(Native.HOLDS_READ, IllegalMonitorStateException.class, "aqs: the thread also holds the lock to read");
        comesOut(Native.BAD_AMOUNT, IllegalArgumentException.class, range);
        comesOut(Native.OUT_OF_RANGE, IllegalArgumentException.class, range);
        comesOut(Native.TOO_MANY_HOLDS, Error.class, "Maximum lock count exceeded");
        comesOut(Native.TOO_MANY_PERMITS, Error.class, "Maximum permit count exceeded");
        comesOut(Native.OUT_OF_MEMORY, OutOfMemoryError.class, "aqs");
        comesOut(10, AqsException.class, "AQS_HISTORY_FULL");
        comesOut(13, AqsException.class, "AQS_TOO_MANY_THREADS");
        AqsObject.must(Native.OK);
        check(AqsObject.tried(Native.OK) && !AqsObject.tried(Native.WOULD_BLOCK));
        check(AqsObject.checked(0) == 0 && AqsObject.checked(Long.MAX_VALUE) == Long.MAX_VALUE);
    }

    private static void comesOut(int status, Class<?> kind, String words) {
        for (Runnable way : Arrays.<Runnable>asList(
                () -> AqsObject.must(status), () -> AqsObject.tried(status), () -> AqsObject.checked(-status))) {
            Throwable found = null;
            try {
                way.run();
            } catch (Throwable thrown) {
                found = thrown;
            }
            check(found != null && found.getClass() == kind && Objects.equals(found.getMessage(), words));
        }
    }

    /** A lock may have made more conditions than an int counts. */
    static void conditionsWithoutEnd() throws Exception {
        Field made = Conditions.class.getDeclaredField("made");
        made.setAccessible(true);
        try (AqsLock object = new AqsLock()) {
            Exclusive lock = new Exclusive(object, false);
            Conditions conditions = new Conditions(lock, 3);
            ((AtomicInteger) made.get(conditions)).set(Integer.MAX_VALUE);
            lock.lock();
            for (int i = 0; i < 4; i++) {
                AqsCondition condition = conditions.make();
                check(!condition.await(0, TimeUnit.SECONDS));
                condition.signal();
            }
            lock.unlock();
        }
    }

    /** A native library that is nowhere, or that can't be copied, is said to be missing. */
    static void missingLibrary() throws Exception {
        URL[] classes = {Native.class.getProtectionDomain().getCodeSource().getLocation()};
        try (URLClassLoader nowhere = new URLClassLoader(classes, null); URLClassLoader faulty = new Faulty(classes)) {
            check(missing(nowhere).getSuppressed().length == 0);
            check(missing(faulty).getSuppressed()[0].getMessage().equals("no such copy"));
        }
    }

    private static UnsatisfiedLinkError missing(ClassLoader others) throws ClassNotFoundException {
        try {
            Class.forName("aqs.Native", true, others);
        } catch (UnsatisfiedLinkError missing) {
            return missing;
        }
        throw new AssertionError("a library is loaded twice");
    }

    /** Its classes have a native library that can't be read. */
    private static final class Faulty extends URLClassLoader {
        Faulty(URL[] classes) {
            super(classes, null);
        }

        @Override
        public InputStream getResourceAsStream(String name) {
            return new InputStream() {
                @Override
                public int read() throws IOException {
                    throw new IOException("no such copy");
                }
            };
        }
    }

    public static void main(String[] words) throws Exception {
        statuses();
        conditionsWithoutEnd();
        missingLibrary();
        refusedThreads();
        lateInterrupts();
        racingInterrupts();
        unreachable();
        reachable();
        texts();
        System.out.println("java, inside: good");
    }
}
