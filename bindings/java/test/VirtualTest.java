import aqs.AqsCountDownLatch;
import aqs.AqsCyclicBarrier;
import aqs.AqsLock;
import aqs.AqsReadWriteLock;
import aqs.AqsSemaphore;
import java.lang.reflect.Constructor;
import java.lang.reflect.InvocationTargetException;
import java.lang.reflect.Method;
import java.util.Arrays;
import java.util.Date;
import java.util.HashSet;
import java.util.List;
import java.util.Set;
import java.util.concurrent.TimeUnit;
import java.util.concurrent.atomic.AtomicInteger;
import java.util.concurrent.atomic.AtomicReference;
import java.util.concurrent.locks.Condition;

/** Each call of each class refuses a virtual thread, for JDK 21 and later: java VirtualTest. */
final class VirtualTest {
    /** Calls that only tell what the object was made with. */
    private static final Set<String> ALLOWED = new HashSet<>(Arrays.asList(
        "toString", "isFair", "policy", "readLock", "writeLock", "getParties"));

    private int refused;

    interface Work {
        void run() throws Exception;
    }

    /** Runs it in a virtual thread, and throws what it throws. */
    static void inVirtual(Work work) throws Exception {
        AtomicReference<Throwable> fault = new AtomicReference<>();
        Runnable run = () -> {
            try {
                work.run();
            } catch (Throwable thrown) {
                fault.set(thrown);
            }
        };
        ((Thread) Thread.class.getMethod("startVirtualThread", Runnable.class).invoke(null, run)).join();
        if (fault.get() != null) {
            throw new AssertionError(fault.get());
        }
    }

    private static Object argument(Class<?> type, Object condition) {
        if (type == int.class) {
            return 1;
        }
        if (type == long.class) {
            return 1L;
        }
        return type == TimeUnit.class ? TimeUnit.MILLISECONDS
            : type == Condition.class ? condition
            : type == Date.class ? new Date() : null;
    }

    private static Object[] arguments(Class<?>[] types, Object condition) {
        return Arrays.stream(types).map(type -> argument(type, condition)).toArray();
    }

    private static boolean isRefused(InvocationTargetException thrown) {
        Throwable cause = thrown.getCause();
        return cause instanceof UnsupportedOperationException
            && cause.getMessage().contains("virtual thread");
    }

    private void refuses(Object object, Class<?> type, Object condition) throws Exception {
        for (Method method : type.getMethods()) {
            if (ALLOWED.contains(method.getName()) || method.getDeclaringClass() == Object.class
                    || type.getSimpleName().equals("ReadLock") && method.getName().equals("newCondition")) {
                continue;
            }
            try {
                method.invoke(object, arguments(method.getParameterTypes(), condition));
                throw new AssertionError(method + " is not refused");
            } catch (InvocationTargetException thrown) {
                if (!isRefused(thrown)) {
                    throw new AssertionError(method.toString(), thrown);
                }
                refused++;
            }
        }
        check(object.toString().length() > 0);
    }

    private void refusesToMake(Class<?> type) throws Exception {
        for (Constructor<?> constructor : type.getConstructors()) {
            try {
                constructor.newInstance(arguments(constructor.getParameterTypes(), null));
                throw new AssertionError(constructor + " is not refused");
            } catch (InvocationTargetException thrown) {
                check(isRefused(thrown));
                refused++;
            }
        }
    }

    static void check(boolean fact) {
        if (!fact) {
            throw new AssertionError();
        }
    }

    /** Eight of them at once, as many programs would have it: none gets in. */
    static void excluded() throws Exception {
        try (AqsLock lock = new AqsLock()) {
            AtomicInteger inside = new AtomicInteger(), refusals = new AtomicInteger();
            for (int i = 0; i < 8; i++) {
                inVirtual(() -> {
                    try {
                        lock.lock();
                        inside.incrementAndGet();
                    } catch (UnsupportedOperationException refusal) {
                        refusals.incrementAndGet();
                    }
                });
            }
            check(inside.get() == 0 && refusals.get() == 8);
            check(lock.tryLock());
            lock.unlock();
        }
    }

    public static void main(String[] words) throws Exception {
        VirtualTest test = new VirtualTest();
        try (AqsLock lock = new AqsLock(); AqsReadWriteLock sides = new AqsReadWriteLock();
                AqsSemaphore permits = new AqsSemaphore(5);
                AqsCountDownLatch latch = new AqsCountDownLatch(0);
                AqsCyclicBarrier barrier = new AqsCyclicBarrier(1)) {
            Condition met = lock.newCondition(), written = sides.writeLock().newCondition();
            List<Class<?>> classes = Arrays.asList(
                AqsLock.class, AqsReadWriteLock.class, AqsSemaphore.class, AqsCountDownLatch.class,
                AqsCyclicBarrier.class);
            inVirtual(() -> {
                test.refuses(lock, AqsLock.class, met);
                test.refuses(met, Condition.class, null);
                test.refuses(sides, AqsReadWriteLock.class, written);
                test.refuses(sides.readLock(), AqsReadWriteLock.ReadLock.class, null);
                test.refuses(sides.writeLock(), AqsReadWriteLock.WriteLock.class, null);
                test.refuses(written, Condition.class, null);
                test.refuses(permits, AqsSemaphore.class, null);
                test.refuses(latch, AqsCountDownLatch.class, null);
                test.refuses(barrier, AqsCyclicBarrier.class, null);
                for (Class<?> type : classes) {
                    test.refusesToMake(type);
                }
            });
            excluded();
        }
        check(test.refused > 60);
        System.out.println("java, virtual threads: " + test.refused + " calls are refused");
    }
}
