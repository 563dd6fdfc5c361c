package aqs;

import java.lang.invoke.MethodHandle;
import java.lang.invoke.MethodHandles;
import java.lang.invoke.MethodType;

/** Which threads may call: each but a virtual one, whose carrier is who the library would take it for. */
final class Callers {
    /** `Thread.isVirtual`, or null in a JDK without virtual threads. */
    private static final MethodHandle IS_VIRTUAL = question("isVirtual");

    private Callers() {}

    /** Throws if the calling thread is virtual. */
    static void check() {
        if (IS_VIRTUAL != null) {
            refuse(IS_VIRTUAL, Thread.currentThread());
        }
    }

    static boolean isVirtual() {
        return IS_VIRTUAL != null && says(IS_VIRTUAL, Thread.currentThread());
    }

    /** Throws if the thread says yes to the question. */
    static void refuse(MethodHandle question, Thread thread) {
        if (says(question, thread)) {
            throw new UnsupportedOperationException(
                "aqs: a virtual thread can't use this library, which knows threads of the system alone");
        }
    }

    /**
     * A method of Thread that takes nothing and returns a boolean, or null if this JDK has none of that name.
     */
    static MethodHandle question(String name) {
        try {
            return MethodHandles.publicLookup().findVirtual(
                Thread.class, name, MethodType.methodType(boolean.class));
        } catch (NoSuchMethodException | IllegalAccessException none) {
            return null;
        }
    }

    private static boolean says(MethodHandle question, Thread thread) {
        try {
            return (boolean) question.invokeExact(thread);
        } catch (RuntimeException | Error fault) {
            throw fault;
        } catch (Throwable fault) {
            throw new IllegalStateException(fault);
        }
    }
}
