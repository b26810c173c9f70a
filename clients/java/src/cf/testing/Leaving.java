package cf.testing;

/** Ends a run from within what it calls. The layer hands it on, so that it is no outcome of a function. */
final class Leaving extends Error {
    private static final long serialVersionUID = 1;

    /** The order fails; a function waits, so the run is begun again with functions on threads of their own; the run has ended. */
    enum Reason { FAILED, NEEDS_THREADS, GONE }

    final Reason reason;

    Leaving(Reason reason) {
        super(reason.toString(), null, false, false);
        this.reason = reason;
    }
}
