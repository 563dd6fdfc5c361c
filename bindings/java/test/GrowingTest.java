import aqs.AqsCountDownLatch;
import aqs.AqsLock;
import aqs.AqsSemaphore;
import java.util.ArrayList;
import java.util.Arrays;
import java.util.Date;
import java.util.List;
import java.util.concurrent.TimeUnit;
import java.util.concurrent.atomic.AtomicBoolean;
import java.util.concurrent.locks.Condition;

/**
 * A history that three threads lengthen without pause, as if they had lengthened it by half between two tries, a
 * history that is too long, and times that are longer than a call of the library can last:
 * java -Djava.library.path=out/growing GrowingTest
 */
final class GrowingTest {
    private static final int STORMS = 3, READS = 20;
    private static final long LEAST_NANOSECONDS = 500_000_000, DAYS = TimeUnit.DAYS.toMillis(30);

    private GrowingTest() {}

    /** How many entries it has. Its last line says as many. */
    static int entries(String text) {
        String[] lines = text.split("\n");
        AqsTest.check(lines[0].startsWith("aqs-history ") && text.endsWith("\n"));
        String[] last = lines[lines.length - 1].split(" ");
        AqsTest.same(last[0], "end");
        int first = 0, entries = 0;
        for (String line : lines) {
            first += line.startsWith("base ") ? Integer.parseInt(line.split(" ")[1]) : 0;
            entries += Character.isDigit(line.charAt(0)) ? 1 : 0;
        }
        AqsTest.same(first + entries, Integer.parseInt(last[1]));
        return entries;
    }

    /** No array of Java is as long as that. */
    static void longestText() {
        try (AqsCountDownLatch latch = new AqsCountDownLatch(1)) {
            for (int i = 0; i < 3; i++) {
                AqsTest.throwing(OutOfMemoryError.class, latch::history);
            }
        }
    }

    /** Such a time isn't up as the call ends. */
    static void longTimes() throws Exception {
        try (AqsSemaphore permits = new AqsSemaphore(0, AqsTest.kept(false));
                AqsLock lock = new AqsLock(AqsTest.kept(false))) {
            Condition met = lock.newCondition();
            for (Way way : Arrays.<Way>asList(
                    () -> permits.tryAcquire(30, TimeUnit.DAYS), () -> in(lock, () -> met.await(30, TimeUnit.DAYS)),
                    () -> in(lock, () -> met.awaitNanos(TimeUnit.DAYS.toNanos(30)) > 0),
                    () -> in(lock, () -> met.awaitUntil(new Date(System.currentTimeMillis() + DAYS))))) {
                permits.trim();
                lock.trim();
                Thread waiter = AqsTest.start(() -> AqsTest.check(way.goesOn()));
                AqsTest.until(() -> entries(permits.history()) + entries(lock.history()) > 10);
                permits.release();
                while (waiter.isAlive()) { // a signal between two calls of the library reaches nobody
                    AqsTest.check(in(lock, () -> {
                        met.signal();
                        return true;
                    }));
                    waiter.join(10);
                }
                permits.drainPermits();
            }
        }
    }

    interface Way {
        boolean goesOn() throws Exception;
    }

    static boolean in(AqsLock lock, Way way) throws Exception {
        lock.lock();
        try {
            return way.goesOn();
        } finally {
            lock.unlock();
        }
    }

    public static void main(String[] words) throws Exception {
        longestText();
        longTimes();
        AtomicBoolean isOver = new AtomicBoolean();
        List<Thread> storms = new ArrayList<>();
        try (AqsLock lock = new AqsLock(AqsTest.kept(false))) {
            for (int i = 0; i < STORMS; i++) {
                storms.add(AqsTest.start(() -> {
                    while (!isOver.get()) {
                        lock.lock();
                        lock.unlock();
                    }
                }));
            }
            int entries = 0;
            long begun = System.nanoTime();
            for (int i = 0; i < READS || entries == 0 || System.nanoTime() - begun < LEAST_NANOSECONDS; i++) {
                lock.trim();
                entries += entries(lock.history());
            }
            isOver.set(true);
            AqsTest.join(storms);
        } finally {
            isOver.set(true);
        }
        System.out.println("java: good");
    }
}
