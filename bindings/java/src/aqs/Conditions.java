package aqs;

import java.util.ArrayList;
import java.util.Collections;
import java.util.List;
import java.util.concurrent.atomic.AtomicInteger;

/**
 * The conditions of a lock and their numbers, of which the library has a few. A condition has a number while
 * threads are in its waits: its own if that is free, else another that is free. If none is, it shares its
 * own. Numbers are given and given back under the lock alone.
 */
final class Conditions {
    final Exclusive lock;
    private final List<List<AqsCondition>> having = new ArrayList<>();
    private final AtomicInteger made = new AtomicInteger();

    Conditions(Exclusive lock, int numbers) {
        this.lock = lock;
        for (int number = 0; number < numbers; number++) {
            having.add(new ArrayList<>(0));
        }
    }

    AqsCondition make() {
        Callers.check();
        return new AqsCondition(this, Math.floorMod(made.getAndIncrement(), having.size()));
    }

    /** The condition, if it is one of this lock. Otherwise it throws. */
    AqsCondition own(java.util.concurrent.locks.Condition condition) {
        if (condition == null) {
            throw new NullPointerException();
        }
        if (!(condition instanceof AqsCondition) || ((AqsCondition) condition).conditions != this) {
            throw new IllegalArgumentException("not owner");
        }
        return (AqsCondition) condition;
    }

    /** Gives a condition a number, and returns it. */
    int bind(AqsCondition condition, int own) {
        int free = isFree(own) ? own : having.indexOf(Collections.emptyList());
        int number = free < 0 ? own : free;
        having.get(number).add(condition);
        return number;
    }

    void release(AqsCondition condition, int number) {
        having.get(number).remove(condition);
    }

    boolean isFree(int number) {
        return having.get(number).isEmpty();
    }

    List<AqsCondition> having(int number) {
        return having.get(number);
    }
}
