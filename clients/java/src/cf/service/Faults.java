package cf.service;

import cf.internal.Layout;
import java.util.Arrays;
import java.util.HashMap;
import java.util.Map;
import java.util.concurrent.CancellationException;
import java.util.concurrent.CompletionException;
import java.util.concurrent.TimeoutException;
import java.util.concurrent.atomic.AtomicReferenceFieldUpdater;
import java.util.stream.IntStream;

/**
 * The exceptions of a request: those that codes stand for, and the one that each failed stage is told by. As in CompletableFuture, each stage that
 * is cancelled or times out has its own, and so has each one that wraps: a stage passes on the very one of its source if that wraps already. So
 * what is added to one, as a suppressed exception, no other stage is told. The request's lock guards it.
 */
final class Faults {
    private final Sources sources;
    private Throwable[] errors = new Throwable[2];
    private int count;
    /** Of stages that have failed what they are told by. */
    private final Map<Integer, Fault> stageFaults = new HashMap<>();

    /** What an exception is told by: the stage's outcome, and what functions behind it are called with. */
    static final class Fault {
        private static final AtomicReferenceFieldUpdater<Fault, Throwable> ERROR =
                AtomicReferenceFieldUpdater.newUpdater(Fault.class, Throwable.class, "error");

        /** One that wraps has none until somebody asks, who has no lock then: its constructor asks the cause for a text. */
        private volatile Throwable error;
        /** What it wraps, or null. */
        private final Fault cause;
        /** Whether it has a number in a request: a cancellation, a timeout and what is no stage's have none. */
        final boolean isCoded;
        /** Whether a stage timed out: not that somebody's exception says so. */
        final boolean isTimeout;

        /** Of what is no stage's. */
        Fault(Throwable error) {
            this(error, false, false);
        }

        private Fault(Throwable error, boolean isCoded, boolean isTimeout) {
            this.error = error;
            this.isCoded = isCoded;
            this.isTimeout = isTimeout;
            cause = null;
        }

        private Fault(Fault cause) {
            this.cause = cause;
            isCoded = cause.isCoded;
            isTimeout = cause.isTimeout;
        }

        /** The exception, which is the same for all who ask. */
        Throwable error() {
            if (error == null) {
                ERROR.compareAndSet(this, null, wrap(cause.error));
            }
            return error;
        }

        boolean isWrapped() {
            return cause != null || error instanceof CompletionException;
        }

        boolean isCancellation() {
            return error instanceof CancellationException;
        }

        /** What failed at first, which isn't wrapped, unless somebody has thrown it so. */
        Throwable rawError() {
            return cause != null ? cause.error : error;
        }
    }

    Faults(Sources sources) {
        this.sources = sources;
    }

    int codeOf(Throwable error) {
        if (count > 0 && errors[count - 1] == error) {
            return count - 1;
        }
        if (count == errors.length) {
            errors = Arrays.copyOf(errors, 2 * count);
        }
        errors[count] = error;
        return count++;
    }

    /**
     * What a stage is told by that was settled so, from now on. Who takes it of a source that wraps passes that on. Others wrap what the source has,
     * or what their function has thrown.
     */
    Fault faultOfSettled(int stage, int kind, boolean isWrapped, int code) {
        return stageFaults.computeIfAbsent(stage, none -> {
            IntStream of = isWrapped ? Arrays.stream(sources.sourcesOf(stage)) : IntStream.empty();
            Fault its = of.mapToObj(stageFaults::get).filter(each -> isOf(each, kind, code)).findFirst().orElseGet(() -> newFault(kind, code));
            return isWrapped && !its.isWrapped() ? new Fault(its) : its;
        });
    }

    /** A stage that stands for another one, and is yet to be told, is told by the same, if it fails in the same way. */
    void shareFault(int stage, int kind, int code, Fault other) {
        if (isOf(other, kind, code)) {
            stageFaults.put(stage, other);
        }
    }

    /** What a failed stage is told by; else null. */
    Fault faultOf(int stage) {
        return stageFaults.get(stage);
    }

    private Fault newFault(int kind, int code) {
        switch (kind) {
            case Layout.CANCELLED:
                return new Fault(new CancellationException(), false, false);
            case Layout.TIMED_OUT:
                return new Fault(new TimeoutException(), false, true);
            case Layout.THROWN:
                return new Fault(errors[code], true, false);
            default:
                throw new AssertionError("outcome " + kind);
        }
    }

    private boolean isOf(Fault fault, int kind, int code) {
        return fault != null && (kind == Layout.THROWN ? fault.isCoded && fault.rawError() == errors[code]
                : !fault.isCoded && fault.isTimeout == (kind == Layout.TIMED_OUT));
    }

    /** A completion exception. If its cause throws when it is asked for a text, it has none. */
    private static CompletionException wrap(Throwable error) {
        try {
            return new CompletionException(error);
        } catch (Throwable unspeakable) {
            return new CompletionException(null, error);
        }
    }

    Throwable[] errors() {
        return Arrays.copyOf(errors, count);
    }
}
