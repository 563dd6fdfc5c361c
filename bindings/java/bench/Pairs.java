import aqs.AqsLock;
import aqs.AqsReadWriteLock;
import aqs.AqsSemaphore;
import java.util.Arrays;
import java.util.concurrent.Semaphore;
import java.util.concurrent.locks.Lock;
import java.util.concurrent.locks.ReentrantLock;
import java.util.concurrent.locks.ReentrantReadWriteLock;

/**
 * Nanoseconds of a pair of calls by one thread, the best and the median of some rounds: java Pairs [ROUNDS]. As many
 * rounds before them are not counted, in which the calls are compiled.
 */
final class Pairs {
    private static final int PAIRS = 10_000;

    private Pairs() {}

    interface Work {
        void run() throws InterruptedException;
    }

    static void locks(Lock lock) {
        for (int i = 0; i < PAIRS; i++) {
            lock.lock();
            lock.unlock();
        }
    }

    static void interruptibly(Lock lock) throws InterruptedException {
        for (int i = 0; i < PAIRS; i++) {
            lock.lockInterruptibly();
            lock.unlock();
        }
    }

    static void permits(AqsSemaphore permits) throws InterruptedException {
        for (int i = 0; i < PAIRS; i++) {
            permits.acquire(1);
            permits.release(1);
        }
    }

    static void permits(Semaphore permits) throws InterruptedException {
        for (int i = 0; i < PAIRS; i++) {
            permits.acquire(1);
            permits.release(1);
        }
    }

    static void tell(String name, int rounds, Work work) throws InterruptedException {
        double[] took = new double[rounds];
        for (int i = -rounds; i < rounds; i++) {
            long begin = System.nanoTime();
            work.run();
            took[Math.max(i, 0)] = (double) (System.nanoTime() - begin) / PAIRS;
        }
        Arrays.sort(took);
        System.out.printf("%-34s best %7.1f, median %7.1f ns%n", name, took[0], took[rounds / 2]);
    }

    public static void main(String[] words) throws InterruptedException {
        int rounds = words.length > 0 ? Integer.parseInt(words[0]) : 300;
        try (AqsLock lock = new AqsLock();
                AqsReadWriteLock sides = new AqsReadWriteLock();
                AqsSemaphore permits = new AqsSemaphore(1)) {
            ReentrantLock jdk = new ReentrantLock();
            ReentrantReadWriteLock jdkSides = new ReentrantReadWriteLock();
            Semaphore jdkPermits = new Semaphore(1);
            tell("ReentrantLock lock", rounds, () -> locks(jdk));
            tell("AqsLock lock", rounds, () -> locks(lock));
            tell("ReentrantLock lockInterruptibly", rounds, () -> interruptibly(jdk));
            tell("AqsLock lockInterruptibly", rounds, () -> interruptibly(lock));
            tell("Semaphore acquire", rounds, () -> permits(jdkPermits));
            tell("AqsSemaphore acquire", rounds, () -> permits(permits));
            tell("ReentrantReadWriteLock readLock", rounds, () -> locks(jdkSides.readLock()));
            tell("AqsReadWriteLock readLock", rounds, () -> locks(sides.readLock()));
            tell("ReentrantReadWriteLock writeLock", rounds, () -> locks(jdkSides.writeLock()));
            tell("AqsReadWriteLock writeLock", rounds, () -> locks(sides.writeLock()));
        }
    }
}
