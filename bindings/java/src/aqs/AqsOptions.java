package aqs;

/** How an object is opened. What isn't set has its default. */
public final class AqsOptions {
    private static final int MOST_CONDITIONS = 16, MOST_THREADS = 256, LEAST_ENTRIES = 16;

    AqsPolicy policy = AqsPolicy.NONFAIR;
    boolean keeps;
    int entries;
    int threads;
    int conditions;

    /** The defaults: not fair, and a full history is forgotten. */
    public AqsOptions() {}

    /**
     * New calls queue up after those that wait. Tries without a time barge.
     *
     * @return this
     */
    public AqsOptions fair() {
        policy = AqsPolicy.FAIR;
        return this;
    }

    /**
     * New calls queue up after those that wait. A try fails if others wait.
     *
     * @return this
     */
    public AqsOptions strict() {
        policy = AqsPolicy.STRICT;
        return this;
    }

    /**
     * Keeps all entries of the history, and refuses new calls when it is full.
     *
     * @return this
     */
    public AqsOptions keepHistory() {
        keeps = true;
        return this;
    }

    /**
     * Sets the most entries that are kept.
     *
     * @param most at least 16, or 0 for the default
     * @return this
     */
    public AqsOptions mostEntries(int most) {
        entries = most;
        return this;
    }

    /**
     * Sets how many threads can hold the object or wait for it at a time. Each takes memory.
     *
     * @param number 1 to 256, or 0 for the default
     * @return this
     */
    public AqsOptions threads(int number) {
        threads = number;
        return this;
    }

    /**
     * Sets how many conditions of a lock may have waiters at once with no waiter woken for another's signal.
     * Each takes memory. The default is 16.
     *
     * @param number 1 to 16, or 0 for the default
     * @return this
     */
    public AqsOptions conditions(int number) {
        conditions = number;
        return this;
    }

    /** Throws if a number is out of its range. */
    void check() {
        inRange("mostEntries", entries, LEAST_ENTRIES, Integer.MAX_VALUE);
        inRange("threads", threads, 1, MOST_THREADS);
        inRange("conditions", conditions, 1, MOST_CONDITIONS);
    }

    private static void inRange(String name, int number, int least, int most) {
        if (number != 0 && (number < least || number > most)) {
            throw new IllegalArgumentException(
                "aqs: " + name + " must be " + least + " to " + most + ", not " + number);
        }
    }

    int mostConditions() {
        return conditions == 0 ? MOST_CONDITIONS : conditions;
    }
}
