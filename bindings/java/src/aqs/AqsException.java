package aqs;

/**
 * A call that couldn't be made, for a reason that the JDK's classes don't have: the history is full and kept,
 * or too many threads hold the object or wait for it. Nothing has changed by it.
 */
public final class AqsException extends RuntimeException {
    private static final long serialVersionUID = 1;

    /** The number of the status. */
    private final int status;

    AqsException(int status) {
        super(Native.statusName(status));
        this.status = status;
    }

    /**
     * Returns the number of the status in aqs.h. The message is its name.
     *
     * @return the number
     */
    public int status() {
        return status;
    }
}
