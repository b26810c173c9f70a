package cf.testing;

/** How runs go. */
final class Settings {
    /** How many functions of executors may go on at the same time; 0 is any number. */
    int workers;
    /** Limits need not pass, and those of settled stages pass like others, as {@code cf_look explore} has it. */
    boolean isClockFree;
    /** A function lets others go on at each change that it makes. */
    boolean isFine;
    /** What can come to nothing else is left out. */
    boolean isReduced = true;
    /** Functions have threads of their own, so that they can wait. */
    boolean hasThreads;
}
