package aqs;

import java.io.IOException;
import java.io.InputStream;
import java.nio.file.Files;
import java.nio.file.Path;
import java.nio.file.StandardCopyOption;

/**
 * The calls of libaqs, through aqs_jni.c. `keep` is the object whose handle `at` is: it can't be collected,
 * and so isn't closed, while a call has it.
 */
final class Native {
    /** Statuses of aqs.h. aqs_jni.c doesn't compile if they have other numbers there. */
    static final int OK = 0, TIMED_OUT = 1, INTERRUPTED = 2, WOULD_BLOCK = 3, NOT_OWNER = 4,
        TOO_MANY_HOLDS = 5, TOO_MANY_PERMITS = 6, HOLDS_READ = 7, BAD_AMOUNT = 9, OUT_OF_MEMORY = 11,
        OUT_OF_RANGE = 12;

    /** What an object is. The numbers are those of aqs_jni.c. */
    static final int LOCK = 0, READ_WRITE = 1, SEMAPHORE = 2, LATCH = 3;

    /** The calls that an interrupt may end. The numbers are those of aqs_jni.c. */
    static final int WAITS_TO_LOCK = 0, WAITS_ON_CONDITION = 1, WAITS_TO_READ = 2, WAITS_TO_WRITE = 3,
        WAITS_ON_WRITERS_CONDITION = 4, WAITS_FOR_PERMITS = 5, WAITS_FOR_LATCH = 6;

    private static final String LIBRARY = "aqsjni";

    static {
        load();
    }

    private Native() {}

    /** Loads the library from java.library.path, or if it isn't there, from the jar. */
    private static void load() {
        try {
            System.loadLibrary(LIBRARY);
        } catch (UnsatisfiedLinkError missing) {
            try (InputStream packed = Native.class.getResourceAsStream(System.mapLibraryName(LIBRARY))) {
                if (packed == null) {
                    throw missing;
                }
                loadCopy(packed);
            } catch (IOException fault) {
                missing.addSuppressed(fault);
                throw missing;
            }
        }
    }

    private static void loadCopy(InputStream packed) throws IOException {
        Path copy = Files.createTempFile("aqs", System.mapLibraryName(LIBRARY));
        try {
            Files.copy(packed, copy, StandardCopyOption.REPLACE_EXISTING);
            System.load(copy.toString());
        } finally {
            Files.delete(copy);
        }
    }

    /** The object's handle, or the status, made negative. */
    static native long open(
        int kind, int number, int policy, boolean keeps, int entries, int threads, int conditions);

    static native void close(int kind, long at);

    static native int lock(Object keep, long at);

    static native int tryLock(Object keep, long at);

    static native int unlock(Object keep, long at);

    static native int await(Object keep, long at, int condition);

    static native int signal(Object keep, long at, int condition);

    static native int signalAll(Object keep, long at, int condition);

    static native int readLock(Object keep, long at);

    static native int tryReadLock(Object keep, long at);

    static native int readUnlock(Object keep, long at);

    static native int writeLock(Object keep, long at);

    static native int tryWriteLock(Object keep, long at);

    static native int writeUnlock(Object keep, long at);

    static native int writersAwait(Object keep, long at, int condition);

    static native int writersSignal(Object keep, long at, int condition);

    static native int writersSignalAll(Object keep, long at, int condition);

    static native int acquire(Object keep, long at, int n);

    static native int tryAcquire(Object keep, long at, int n);

    static native int release(Object keep, long at, int n);

    static native int awaitLatch(Object keep, long at);

    static native int countDown(Object keep, long at);

    /** A call that an interrupt may end. `number` is an amount or a condition. */
    static native int interruptible(Object keep, long at, int call, int number);

    /** The same, for at most this time. */
    static native int timed(Object keep, long at, int call, int number, int milliseconds);

    /** How many permits were free, or the status, made negative. */
    static native long drain(Object keep, long at);

    /** A status. It puts the free permits of a semaphore, or the count of a latch, into the first place. */
    static native int number(Object keep, int kind, long at, long[] into);

    /** 1 if any thread owns the lock, or its write side, 0 if none does, or the status, made negative. */
    static native long isLocked(Object keep, int kind, long at);

    /** How many threads are in the object's queue, or the status, made negative. */
    static native long queueLength(Object keep, int kind, long at);

    /** How many threads wait in the object, also on its conditions, or the status, made negative. */
    static native long waiters(Object keep, int kind, long at);

    /** A status. It puts the text into the first place. */
    static native int history(Object keep, int kind, long at, byte[][] into);

    /** A status. It puts the names of the seats into the first place. */
    static native int names(Object keep, int kind, long at, byte[][] into);

    /** How many entries there were, or the status, made negative. */
    static native long trim(Object keep, int kind, long at);

    static native String statusName(int status);

    /** The calling thread's number, or -1 if all are taken. */
    static native int self();

    /** Interrupts the library's calls of the thread with this number. A status. */
    static native int interrupt(int thread);

    /** Clears such an interrupt of the calling thread. */
    static native void clearInterrupt();
}
