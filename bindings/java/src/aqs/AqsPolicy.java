package aqs;

/** Which new calls queue up after those that wait. A call by the owner never does. */
public enum AqsPolicy {
    // Their order is that of aqs.h. aqs_jni.c doesn't compile if they have other numbers there.
    /** None: a new call may take what is free before they do. */
    NONFAIR,
    /** All but tries without a time. */
    FAIR,
    /** All: a try fails if others wait. */
    STRICT
}
