package cf.testing;

/**
 * A test does other things when it is run again with the same row of moves, so that orders can't be tried. What differs may be a clock, a
 * random number, the order of a {@code HashMap} of objects without a hash code of their own, a thread of one's own, or something that
 * outlives a run.
 */
public final class NotDeterministicError extends AssertionError {
    private static final long serialVersionUID = 1;

    NotDeterministicError(String message) {
        super(message);
    }
}
