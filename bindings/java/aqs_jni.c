/* aqs_jni.c: the native methods of aqs.Native, over aqs.h.

   `keep` is the object of Java that has the handle `at`. The native frame holds it, so that it isn't
   collected, and the handle not closed, during a call. */
#include "aqs.h"

#include <jni.h>
#include <stdbool.h>
#include <stdlib.h>

_Static_assert(
    AQS_OK == 0 && AQS_TIMED_OUT == 1 && AQS_INTERRUPTED == 2 && AQS_WOULD_BLOCK == 3 && AQS_NOT_OWNER == 4 &&
        AQS_TOO_MANY_HOLDS == 5 && AQS_TOO_MANY_PERMITS == 6 && AQS_HOLDS_READ == 7 && AQS_BAD_AMOUNT == 9 &&
        AQS_OUT_OF_MEMORY == 11 && AQS_OUT_OF_RANGE == 12,
    "the statuses are those of Native.java");
_Static_assert(AQS_NONFAIR == 0 && AQS_FAIR == 1 && AQS_STRICT == 2, "the policies are those of AqsPolicy.java");

#define NATIVE(result, name) JNIEXPORT result JNICALL Java_aqs_Native_##name

enum { LOCK, READ_WRITE, SEMAPHORE, LATCH };
enum {
    WAITS_TO_LOCK, WAITS_ON_CONDITION, WAITS_TO_READ, WAITS_TO_WRITE, WAITS_ON_WRITERS_CONDITION,
    WAITS_FOR_PERMITS, WAITS_FOR_LATCH
};

static void *pointer(jlong at) { return (void *)(uintptr_t)at; }

static aqs_object_t *object_of(jint kind, jlong at) {
    switch (kind) {
        case LOCK: return aqs_lock_object(pointer(at));
        case READ_WRITE: return aqs_rwlock_object(pointer(at));
        case SEMAPHORE: return aqs_sem_object(pointer(at));
        default: return aqs_latch_object(pointer(at));
    }
}

static aqs_status_t opened(jint kind, jint number, const aqs_options_t *options, void **object) {
    aqs_status_t status;
    aqs_lock_t *lock = NULL;
    aqs_rwlock_t *rwlock = NULL;
    aqs_sem_t *semaphore = NULL;
    aqs_latch_t *latch = NULL;
    switch (kind) {
        case LOCK: status = aqs_lock_open(&lock, options); *object = lock; break;
        case READ_WRITE: status = aqs_rwlock_open(&rwlock, options); *object = rwlock; break;
        case SEMAPHORE: status = aqs_sem_open(&semaphore, number, options); *object = semaphore; break;
        default: status = aqs_latch_open(&latch, (uint32_t)number, options); *object = latch;
    }
    return status;
}

NATIVE(jlong, open)(JNIEnv *env, jclass class, jint kind, jint number, jint policy, jboolean keeps,
                    jint entries, jint threads, jint conditions) {
    (void)env, (void)class;
    bool in_range = 0 <= entries && 0 <= threads && threads <= UINT16_MAX && 0 <= conditions && conditions <= UINT8_MAX;
    if (!in_range) return -AQS_OUT_OF_RANGE;
    aqs_options_t options = {
        .policy = (aqs_policy_t)policy,
        .when_full = keeps ? AQS_REFUSE : AQS_TRIM,
        .history = (uint32_t)entries,
        .threads = (uint16_t)threads,
        .conditions = (uint8_t)conditions,
    };
    void *object = NULL;
    aqs_status_t status = opened(kind, number, &options, &object);
    return status == AQS_OK ? (jlong)(uintptr_t)object : -(jlong)status;
}

NATIVE(void, close)(JNIEnv *env, jclass class, jint kind, jlong at) {
    (void)env, (void)class;
    switch (kind) {
        case LOCK: aqs_lock_close(pointer(at)); break;
        case READ_WRITE: aqs_rwlock_close(pointer(at)); break;
        case SEMAPHORE: aqs_sem_close(pointer(at)); break;
        default: aqs_latch_close(pointer(at));
    }
}

/* A call of the object alone, and one with a number. */
#define CALL(name, call)                                                                     \
    NATIVE(jint, name)(JNIEnv *env, jclass class, jobject keep, jlong at) {                  \
        (void)env, (void)class, (void)keep;                                                  \
        return (jint)call(pointer(at));                                                      \
    }
#define CALL_WITH(name, call, type)                                                          \
    NATIVE(jint, name)(JNIEnv *env, jclass class, jobject keep, jlong at, jint number) {     \
        (void)env, (void)class, (void)keep;                                                  \
        return (jint)call(pointer(at), (type)number);                                        \
    }

CALL(lock, aqs_lock_lock)
CALL(tryLock, aqs_lock_trylock)
CALL(unlock, aqs_lock_unlock)
CALL_WITH(await, aqs_lock_wait, uint8_t)
CALL_WITH(signal, aqs_lock_signal, uint8_t)
CALL_WITH(signalAll, aqs_lock_signal_all, uint8_t)
CALL(readLock, aqs_rwlock_rdlock)
CALL(tryReadLock, aqs_rwlock_tryrdlock)
CALL(readUnlock, aqs_rwlock_rdunlock)
CALL(writeLock, aqs_rwlock_wrlock)
CALL(tryWriteLock, aqs_rwlock_trywrlock)
CALL(writeUnlock, aqs_rwlock_wrunlock)
CALL_WITH(writersAwait, aqs_rwlock_wait, uint8_t)
CALL_WITH(writersSignal, aqs_rwlock_signal, uint8_t)
CALL_WITH(writersSignalAll, aqs_rwlock_signal_all, uint8_t)
CALL_WITH(acquire, aqs_sem_acquire, uint32_t)
CALL_WITH(tryAcquire, aqs_sem_tryacquire, uint32_t)
CALL_WITH(release, aqs_sem_release, uint32_t)
CALL(awaitLatch, aqs_latch_await)
CALL(countDown, aqs_latch_count_down)

NATIVE(jint, interruptible)(JNIEnv *env, jclass class, jobject keep, jlong at, jint call, jint number) {
    (void)env, (void)class, (void)keep;
    void *it = pointer(at);
    switch (call) {
        case WAITS_TO_LOCK: return aqs_lock_lock_interruptibly(it);
        case WAITS_ON_CONDITION: return aqs_lock_wait_interruptibly(it, (uint8_t)number);
        case WAITS_TO_READ: return aqs_rwlock_rdlock_interruptibly(it);
        case WAITS_TO_WRITE: return aqs_rwlock_wrlock_interruptibly(it);
        case WAITS_ON_WRITERS_CONDITION: return aqs_rwlock_wait_interruptibly(it, (uint8_t)number);
        case WAITS_FOR_PERMITS: return aqs_sem_acquire_interruptibly(it, (uint32_t)number);
        default: return aqs_latch_await_interruptibly(it);
    }
}

NATIVE(jint, timed)(JNIEnv *env, jclass class, jobject keep, jlong at, jint call, jint number,
                    jint milliseconds) {
    (void)env, (void)class, (void)keep;
    void *it = pointer(at);
    int64_t time = milliseconds;
    switch (call) {
        case WAITS_TO_LOCK: return aqs_lock_timedlock(it, time);
        case WAITS_ON_CONDITION: return aqs_lock_timedwait(it, (uint8_t)number, time);
        case WAITS_TO_READ: return aqs_rwlock_timedrdlock(it, time);
        case WAITS_TO_WRITE: return aqs_rwlock_timedwrlock(it, time);
        case WAITS_ON_WRITERS_CONDITION: return aqs_rwlock_timedwait(it, (uint8_t)number, time);
        case WAITS_FOR_PERMITS: return aqs_sem_timedacquire(it, (uint32_t)number, time);
        default: return aqs_latch_timedawait(it, time);
    }
}

NATIVE(jlong, drain)(JNIEnv *env, jclass class, jobject keep, jlong at) {
    (void)env, (void)class, (void)keep;
    uint32_t n = 0;
    aqs_status_t status = aqs_sem_drain(pointer(at), &n);
    return status == AQS_OK ? (jlong)n : -(jlong)status;
}

NATIVE(jint, number)(JNIEnv *env, jclass class, jobject keep, jint kind, jlong at, jlongArray into) {
    (void)class, (void)keep;
    int64_t permits = 0;
    uint32_t count = 0;
    aqs_status_t status = kind == SEMAPHORE ? aqs_sem_getvalue(pointer(at), &permits)
                                            : aqs_latch_getcount(pointer(at), &count);
    jlong number = kind == SEMAPHORE ? (jlong)permits : (jlong)count;
    if (status == AQS_OK) (*env)->SetLongArrayRegion(env, into, 0, 1, &number);
    return (jint)status;
}

NATIVE(jlong, isLocked)(JNIEnv *env, jclass class, jobject keep, jint kind, jlong at) {
    (void)env, (void)class, (void)keep;
    aqs_bool_t is_locked = false;
    aqs_status_t status = kind == LOCK ? aqs_lock_is_locked(pointer(at), &is_locked)
                                       : aqs_rwlock_is_write_locked(pointer(at), &is_locked);
    return status == AQS_OK ? (jlong)is_locked : -(jlong)status;
}

NATIVE(jlong, queueLength)(JNIEnv *env, jclass class, jobject keep, jint kind, jlong at) {
    (void)env, (void)class, (void)keep;
    uint32_t count = 0;
    aqs_status_t status = aqs_object_queue_length(object_of(kind, at), &count);
    return status == AQS_OK ? (jlong)count : -(jlong)status;
}

NATIVE(jlong, waiters)(JNIEnv *env, jclass class, jobject keep, jint kind, jlong at) {
    (void)env, (void)class, (void)keep;
    uint32_t count = 0;
    aqs_status_t status = aqs_object_waiters(object_of(kind, at), &count);
    return status == AQS_OK ? (jlong)count : -(jlong)status;
}

/* Where an array can't be made, an OutOfMemoryError is pending. */
static void put_text(JNIEnv *env, jobjectArray into, const char *text, size_t length) {
    jbyteArray array = (*env)->NewByteArray(env, (jsize)length);
    if (!array) return;
    (*env)->SetByteArrayRegion(env, array, 0, (jsize)length, (const jbyte *)text);
    (*env)->SetObjectArrayElement(env, into, 0, array);
}

typedef aqs_status_t text_of(aqs_object_t *object, char *buffer, size_t size, size_t *length);

/* Other threads may lengthen the text between two tries. So each try has twice the spare room, until the room is
   twice the text. */
static jint read_text(JNIEnv *env, text_of *of, aqs_object_t *object, jobjectArray into) {
    size_t size = 4096, length = 0;
    for (size_t share = 8;; share = share > 1 ? share / 2 : 1) {
        char *text = length <= INT32_MAX ? malloc(size) : NULL;
        if (!text) return AQS_OUT_OF_MEMORY;
        aqs_status_t status = of(object, text, size, &length);
        if (status == AQS_OK) put_text(env, into, text, length);
        free(text);
        if (status != AQS_NO_SPACE) return (jint)status;
        size = length + length / share;
        if (size > INT32_MAX) size = INT32_MAX;
    }
}

NATIVE(jint, history)(JNIEnv *env, jclass class, jobject keep, jint kind, jlong at, jobjectArray into) {
    (void)class, (void)keep;
    return read_text(env, aqs_history_text, object_of(kind, at), into);
}

NATIVE(jint, names)(JNIEnv *env, jclass class, jobject keep, jint kind, jlong at, jobjectArray into) {
    (void)class, (void)keep;
    return read_text(env, aqs_history_names, object_of(kind, at), into);
}

NATIVE(jlong, trim)(JNIEnv *env, jclass class, jobject keep, jint kind, jlong at) {
    (void)env, (void)class, (void)keep;
    uint64_t count = 0;
    aqs_status_t status = aqs_history_trim(object_of(kind, at), &count);
    return status == AQS_OK ? (jlong)count : -(jlong)status;
}

NATIVE(jstring, statusName)(JNIEnv *env, jclass class, jint status) {
    (void)class;
    return (*env)->NewStringUTF(env, aqs_status_name((aqs_status_t)status));
}

NATIVE(jint, self)(JNIEnv *env, jclass class) {
    (void)env, (void)class;
    aqs_thread_t self = aqs_thread_self();
    return self != AQS_NO_THREAD ? (jint)self : -1;
}

NATIVE(jint, interrupt)(JNIEnv *env, jclass class, jint thread) {
    (void)env, (void)class;
    return (jint)aqs_thread_interrupt((aqs_thread_t)thread);
}

NATIVE(void, clearInterrupt)(JNIEnv *env, jclass class) {
    (void)env, (void)class;
    aqs_thread_interrupted();
}
