package aqs;

import java.lang.ref.PhantomReference;
import java.lang.ref.ReferenceQueue;
import java.util.Collections;
import java.util.Set;
import java.util.concurrent.ConcurrentHashMap;

/**
 * The native memory of an object. `close` frees it. If nobody closes the object, a daemon thread frees it
 * once the object can't be reached any more. A thread in a call reaches it, so that no memory is freed under
 * a call.
 */
final class Memory extends PhantomReference<AqsObject> {
    private static final ReferenceQueue<AqsObject> UNREACHABLE = new ReferenceQueue<>();
    private static final Set<Memory> LIVE = Collections.newSetFromMap(new ConcurrentHashMap<>());

    static {
        Thread cleaner = new Thread(null, Memory::clean, "aqs-cleaner", 0);
        cleaner.setDaemon(true);
        cleaner.setContextClassLoader(null);
        cleaner.start();
    }

    private final int kind;
    private final long at;

    Memory(AqsObject object, int kind, long at) {
        super(object, UNREACHABLE);
        this.kind = kind;
        this.at = at;
        LIVE.add(this);
    }

    /** Frees it, once. */
    void free() {
        if (LIVE.remove(this)) {
            clear();
            Native.close(kind, at);
        }
    }

    /** How many objects have native memory. */
    static int live() {
        return LIVE.size();
    }

    private static void clean() {
        for (;;) {
            try {
                ((Memory) UNREACHABLE.remove()).free();
            } catch (InterruptedException nobody) {
                // Only free() ends this thread's work, and the thread lasts as long as the program.
            }
        }
    }
}
