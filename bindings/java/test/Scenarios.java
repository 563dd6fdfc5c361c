import aqs.AqsCountDownLatch;
import aqs.AqsCyclicBarrier;
import aqs.AqsLock;
import aqs.AqsObject;
import aqs.AqsOptions;
import aqs.AqsReadWriteLock;
import aqs.AqsSemaphore;
import java.io.File;
import java.io.IOException;
import java.lang.management.ManagementFactory;
import java.lang.reflect.InvocationTargetException;
import java.lang.reflect.Method;
import java.nio.charset.StandardCharsets;
import java.nio.file.Files;
import java.nio.file.Path;
import java.nio.file.Paths;
import java.util.ArrayList;
import java.util.Arrays;
import java.util.Date;
import java.util.HashMap;
import java.util.List;
import java.util.Map;
import java.util.concurrent.Callable;
import java.util.concurrent.CountDownLatch;
import java.util.concurrent.CyclicBarrier;
import java.util.concurrent.ExecutionException;
import java.util.concurrent.ExecutorService;
import java.util.concurrent.Executors;
import java.util.concurrent.Future;
import java.util.concurrent.FutureTask;
import java.util.concurrent.LinkedBlockingQueue;
import java.util.concurrent.Semaphore;
import java.util.concurrent.TimeUnit;
import java.util.concurrent.TimeoutException;
import java.util.concurrent.locks.Condition;
import java.util.concurrent.locks.ReadWriteLock;
import java.util.concurrent.locks.ReentrantLock;
import java.util.concurrent.locks.ReentrantReadWriteLock;

/**
 * Runs a text of scenarios over the JDK's classes and over ours, each fair and not fair, and compares what
 * comes out with the text: java Scenarios FILE FOLDER. The folder gets our histories. The head of
 * scenarios.txt says what the lines mean.
 */
final class Scenarios {
    private static final int SECONDS = 30, STEADY = 25;
    private static final long WAITED = TimeUnit.MILLISECONDS.toNanos(20);

    private final String file;
    private final Path folder;
    private final List<String> faults = new ArrayList<>();

    private Scenarios(String file, Path folder) {
        this.file = file;
        this.folder = folder;
    }

    /** A line of a scenario, and where it stands. */
    private static final class Line {
        final int number;
        final String[] words;
        final String expected;

        Line(int number, String text) {
            this.number = number;
            int arrow = text.indexOf(" -> ");
            words = (arrow < 0 ? text : text.substring(0, arrow)).trim().split("\\s+");
            expected = arrow < 0 ? "done" : text.substring(arrow + 4).trim();
        }
    }

    /** A named thread, which makes one call after another. */
    private static final class Caller {
        final LinkedBlockingQueue<Runnable> work = new LinkedBlockingQueue<>();
        final Thread thread = new Thread(this::run);
        FutureTask<String> call;
        volatile boolean over;

        Caller(String name) {
            thread.setName(name);
            thread.setDaemon(true);
            thread.start();
        }

        private void run() {
            while (!over) {
                Runnable next = next();
                if (next != null) {
                    next.run();
                }
            }
        }

        /** The next call, or null if the scenario is over. An interrupt stays set for the call. */
        private Runnable next() {
            boolean interrupted = Thread.interrupted();
            Runnable next = null;
            while (next == null && !over) {
                try {
                    next = work.take();
                } catch (InterruptedException now) {
                    interrupted = true;
                }
            }
            if (interrupted) {
                thread.interrupt();
            }
            return next;
        }

        void leave() {
            over = true;
            thread.interrupt();
        }

        void begin(Callable<String> what) {
            call = new FutureTask<>(what);
            work.add(call);
        }

        String end() throws Exception {
            try {
                return call.get(SECONDS, TimeUnit.SECONDS);
            } catch (TimeoutException late) {
                return "still waits";
            }
        }

        /** Whether it waits in its call: for some time it has been nowhere else. */
        boolean waits() throws InterruptedException {
            for (int steady = 0; steady < STEADY; steady++) {
                if (call.isDone()) {
                    return false;
                }
                if (!isInside(thread.getStackTrace())) {
                    steady = 0;
                }
                Thread.sleep(1);
            }
            return true;
        }

        private static boolean isInside(StackTraceElement[] stack) {
            return stack.length > 0
                && (stack[0].getMethodName().equals("park") || stack[0].getClassName().equals("aqs.Native"));
        }
    }

    /** One run of a scenario. */
    private final class Run {
        final Map<String, Object> named = new HashMap<>();
        final Map<String, Caller> callers = new HashMap<>();
        final String subject;
        final boolean fair, ours;
        Object object;

        Run(boolean fair, boolean ours) {
            this.fair = fair;
            this.ours = ours;
            subject = (ours ? "ours" : "the JDK's") + (fair ? ", fair" : "");
        }

        void run(List<Line> lines) throws Exception {
            try {
                for (Line line : lines) {
                    String found = tried(line);
                    if (!found.equals(line.expected)) {
                        fault(line.number, subject + ": " + found + ", not " + line.expected);
                        break;
                    }
                }
            } finally {
                callers.values().forEach(Caller::leave);
            }
            if (object instanceof AqsObject) {
                keep(lines.get(0).number, ((AqsObject) object).history());
            }
        }

        /** What a line comes to. One that can't be run is a fault too. */
        private String tried(Line line) {
            try {
                return line.words[0].equals("until") ? repeated(line) : step(line.words);
            } catch (Exception fault) {
                return fault.toString();
            }
        }

        /** Asks until what is expected comes out, for some time. */
        private String repeated(Line line) throws Exception {
            String[] question = Arrays.copyOfRange(line.words, 1, line.words.length);
            long begin = System.nanoTime();
            String found = step(question);
            while (!found.equals(line.expected) && System.nanoTime() - begin < TimeUnit.SECONDS.toNanos(SECONDS)) {
                Thread.sleep(1);
                found = step(question);
            }
            return found;
        }

        void keep(int line, String text) throws IOException {
            String name = "java-line-" + line + (fair ? "-fair" : "") + ".history";
            Files.write(folder.resolve(name), text.getBytes(StandardCharsets.US_ASCII));
        }

        String step(String[] words) throws Exception {
            if (words[0].equals("object")) {
                make(words[1], words.length > 2 ? Integer.parseInt(words[2]) : 0);
                return "done";
            }
            if (words[0].equals("pause")) {
                Thread.sleep(Long.parseLong(words[1].replace("ms", "")));
                return "done";
            }
            if (words[0].equals("interrupt")) {
                callers.computeIfAbsent(words[1], Caller::new).thread.interrupt();
                return "done";
            }
            String name = words[0].replace("!", "");
            Caller caller = callers.computeIfAbsent(name, Caller::new);
            if (words[1].equals("ends")) {
                return caller.end();
            }
            if (words[1].equals("waits")) {
                return String.valueOf(caller.waits());
            }
            caller.begin(() -> call(Arrays.copyOfRange(words, 1, words.length)));
            return !words[0].endsWith("!") ? caller.end() : caller.waits() ? "done" : "ends: " + caller.end();
        }

        void make(String kind, int number) {
            AqsOptions how = new AqsOptions().keepHistory().threads(256);
            AqsOptions options = fair ? how.fair() : how;
            switch (kind) {
                case "lock": object = ours ? new AqsLock(options) : new ReentrantLock(fair); break;
                case "semaphore":
                    object = ours ? new AqsSemaphore(number, options) : new Semaphore(number, fair);
                    break;
                case "latch":
                    object = ours ? new AqsCountDownLatch(number, options) : new CountDownLatch(number);
                    break;
                case "barrier":
                    object = ours ? new AqsCyclicBarrier(number, null, options) : new CyclicBarrier(number);
                    break;
                default:
                    ReadWriteLock lock =
                        ours ? new AqsReadWriteLock(options) : new ReentrantReadWriteLock(fair);
                    object = lock;
                    named.put("read", lock.readLock());
                    named.put("write", lock.writeLock());
            }
        }

        /** Makes a call, in the thread that is to make it, and returns what came out. */
        String call(String[] words) throws Exception {
            int dot = words[0].indexOf('.');
            Object target = dot < 0 ? object : named.get(words[0].substring(0, dot));
            String method = words[0].substring(dot + 1);
            if (method.equals("isInterrupted")) {
                return String.valueOf(Thread.currentThread().isInterrupted());
            }
            List<Object> arguments = new ArrayList<>();
            long begin = System.nanoTime(), time = 0;
            for (int i = 1; i < words.length && !method.equals("newCondition"); i++) {
                time = Math.max(time, argument(words[i], arguments, named));
            }
            Object found;
            try {
                found = invoke(target, method, arguments.toArray());
            } catch (InvocationTargetException thrown) {
                return shown(thrown.getCause(), time, System.nanoTime() - begin);
            }
            long took = System.nanoTime() - begin;
            if (method.equals("newCondition")) {
                named.put(words[1], found);
                return "done";
            }
            return shown(found, method, time, took);
        }
    }

    /**
     * Adds what a word stands for, and returns its time in nanoseconds, or 0. A date is a millisecond at most
     * before its time.
     */
    private static long argument(String word, List<Object> arguments, Map<String, Object> named) {
        if (word.endsWith("ms")) {
            long milliseconds = Long.parseLong(word.replace("ms", "").replace("until+", ""));
            if (word.startsWith("until+")) {
                arguments.add(new Date(System.currentTimeMillis() + milliseconds));
                return TimeUnit.MILLISECONDS.toNanos(Math.max(0, milliseconds - 1));
            }
            arguments.add(milliseconds);
            arguments.add(TimeUnit.MILLISECONDS);
            return TimeUnit.MILLISECONDS.toNanos(milliseconds);
        }
        if (word.endsWith("ns")) {
            arguments.add(Long.parseLong(word.replace("ns", "")));
            return Math.max(0, (long) arguments.get(0));
        }
        if (word.matches("\\d+s")) {
            long seconds = Long.parseLong(word.replace("s", ""));
            arguments.add(seconds);
            arguments.add(TimeUnit.SECONDS);
            return TimeUnit.SECONDS.toNanos(seconds);
        }
        if (word.equals("always") || word.equals("never")) {
            arguments.add(word.equals("always") ? Long.MAX_VALUE : Long.MIN_VALUE);
            arguments.add(TimeUnit.DAYS);
        } else if (word.startsWith("until-")) {
            arguments.add(new Date(word.equals("until-always") ? Long.MAX_VALUE : Long.MIN_VALUE));
        } else {
            arguments.add(named.containsKey(word) ? named.get(word) : Integer.valueOf(word));
        }
        return 0;
    }

    private static Object invoke(Object target, String name, Object[] arguments) throws Exception {
        Class<?> where = target instanceof Condition ? Condition.class : target.getClass();
        for (Method method : where.getMethods()) {
            if (method.getName().equals(name) && method.getParameterCount() == arguments.length) {
                return method.invoke(target, arguments);
            }
        }
        throw new NoSuchMethodException(where + " " + name);
    }

    private static String shown(Throwable thrown, long time, long took) {
        String name = thrown.getClass().getSimpleName();
        if (thrown instanceof TimeoutException) {
            return timed(name, took < time);
        }
        return thrown.getClass() == Error.class ? name + ": " + thrown.getMessage() : name;
    }

    private static String shown(Object found, String method, long time, long took) {
        if (found == null) {
            return "done";
        }
        if (method.equals("toString")) {
            String[] parts = found.toString().split("(?=\\[)", 2);
            return parts[0].matches("[\\w.$]+@\\p{XDigit}+") ? parts[1] : "no name of a class: " + found;
        }
        if (method.equals("awaitNanos")) {
            long left = (long) found;
            boolean isRest = time - took <= left && left <= time - WAITED;
            return left <= 0 ? timed("over", took < time) : isRest ? "left" : left + " of " + time;
        }
        return found.equals(false) ? timed("false", took < time) : found.toString();
    }

    /** What came out as the time was up, unless it wasn't. */
    private static String timed(String shown, boolean early) {
        return early ? "early" : shown;
    }

    private synchronized void fault(int line, String told) {
        faults.add(file + ":" + line + ": " + told);
    }

    /** The scenarios: lines without a blank line between them. */
    private static List<List<Line>> read(List<String> lines) {
        List<List<Line>> scenarios = new ArrayList<>();
        List<Line> open = null;
        for (int i = 0; i < lines.size(); i++) {
            String text = lines.get(i);
            if (text.isEmpty()) {
                open = null;
            } else if (!text.startsWith("#")) {
                if (open == null) {
                    open = new ArrayList<>();
                    scenarios.add(open);
                }
                open.add(new Line(i + 1, text));
            }
        }
        return scenarios;
    }

    private void runAll(List<List<Line>> scenarios) throws InterruptedException, ExecutionException {
        ExecutorService pool = Executors.newFixedThreadPool(8);
        List<Future<?>> runs = new ArrayList<>();
        for (List<Line> scenario : scenarios) {
            for (int how = 0; how < 4; how++) {
                Run run = new Run(how % 2 == 1, how > 1);
                runs.add(pool.submit(() -> {
                    run.run(scenario);
                    return null;
                }));
            }
        }
        for (Future<?> run : runs) {
            run.get();
        }
        pool.shutdown();
    }

    /** Whether copies of the jar's native library are left, from this program's time, and stay. */
    private static boolean hasCopies() throws InterruptedException {
        long since = ManagementFactory.getRuntimeMXBean().getStartTime();
        File place = new File(System.getProperty("java.io.tmpdir"));
        for (int again = 0; again < 20; again++) {
            if (place.list((at, name) -> isCopy(new File(at, name), since)).length == 0) {
                return false;
            }
            Thread.sleep(50); // another program may have one for a moment
        }
        return true;
    }

    private static boolean isCopy(File file, long since) {
        return file.getName().matches("aqs\\d+libaqsjni\\.so") && file.lastModified() >= since;
    }

    public static void main(String[] words) throws Exception {
        Scenarios all = new Scenarios(words[0], Paths.get(words[1]));
        List<List<Line>> scenarios = read(Files.readAllLines(Paths.get(words[0])));
        all.runAll(scenarios);
        if (hasCopies()) {
            all.faults.add("a copy of the native library is left");
        }
        all.faults.forEach(System.out::println);
        System.out.println(scenarios.size() + " scenarios, " + all.faults.size() + " faults");
        System.exit(scenarios.isEmpty() || !all.faults.isEmpty() ? 1 : 0);
    }
}
