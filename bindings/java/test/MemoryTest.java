import aqs.AqsCountDownLatch;
import aqs.AqsLock;
import aqs.AqsOptions;
import aqs.AqsReadWriteLock;
import aqs.AqsSemaphore;
import java.nio.file.Files;
import java.nio.file.Paths;

/** Calls whose native part takes memory keep none of it: java -Xmx32m MemoryTest */
final class MemoryTest {
    private static final int ROUNDS = 3000;
    private static final long MOST_KILOBYTES = 200_000;

    private MemoryTest() {}

    /** The text of each history has some 100,000 bytes. */
    static void histories() {
        try (AqsLock lock = new AqsLock(new AqsOptions().keepHistory())) {
            for (int i = 0; i < ROUNDS; i++) {
                lock.lock();
                lock.unlock();
            }
            int length = lock.history().length();
            for (int i = 0; i < ROUNDS; i++) {
                AqsTest.check(lock.history().length() == length);
            }
        }
    }

    static void objects() {
        for (int i = 0; i < ROUNDS; i++) {
            new AqsLock().close();
            new AqsReadWriteLock().close();
            new AqsSemaphore(1).close();
            new AqsCountDownLatch(1).close();
        }
    }

    /** How much memory the process has. */
    static long kilobytes() throws Exception {
        for (String line : Files.readAllLines(Paths.get("/proc/self/status"))) {
            if (line.startsWith("VmRSS:")) {
                return Long.parseLong(line.replaceAll("[^0-9]", ""));
            }
        }
        throw new AssertionError("no VmRSS");
    }

    public static void main(String[] words) throws Exception {
        histories();
        objects();
        long found = kilobytes();
        System.out.println("java: " + found + " kB");
        AqsTest.check(found < MOST_KILOBYTES);
    }
}
