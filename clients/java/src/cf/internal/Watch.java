package cf.internal;

import cf.service.Request;
import cf.service.Stage;
import java.util.List;
import java.util.concurrent.CompletionStage;
import java.util.function.BooleanSupplier;

/**
 * Runs a service move by move, in place of its executors and its clock, and is called for all that happens to its stages. It decides when a ready
 * function is claimed, called and finished, and when a limit passes. All that would wait asks it to.
 *
 * <p>All methods are called on the thread that makes the change, reads or waits. One thread at a time may be within a service that is
 * watched. Those that say so are called under the request's lock: they only take notes.
 */
public interface Watch {
    /** The name in histories of the one that acts now. Under the lock. */
    String callerName();

    /** The nanoseconds that have passed for a request. Under the lock. */
    long now(Request request);

    /** A request was opened. */
    void requestOpened(Request request);

    /** A stage was attached behind others. Under the lock. */
    void stageAttached(Stage<?> stage, List<? extends Stage<?>> of);

    /** A caller has tried to settle a stage, and did or was too late. Under the lock. */
    void settlingTried(Request request, int stage, boolean did);

    /** A function has ended; its stage waits for another one of its request, if that isn't -1. Under the lock. */
    void functionFinished(Request request, int stage, int to);

    /** A stage ends as another one of its request does. Under the lock. */
    void stageFollows(Request request, int stage, int of);

    /** A stage was settled, with a value, or an exception, which may be passed on wrapped. {@link #eventTold} follows. Under the lock. */
    void stageSettled(Request request, int stage, Object value, Throwable error, boolean isWrapped);

    /** A stage's function is ready, or was claimed by whoever made it ready. Under the lock. */
    void functionReady(Request request, int stage);

    /** All that an event has changed was told. */
    void eventTold();

    /** A relay is to end as a future does that stands elsewhere. */
    void relayLinked(Stage<?> relay, CompletionStage<?> of);

    /** A stage was read. Its reader goes on at once, or waits if it isn't settled. */
    void stageRead(Request request, int stage, boolean orWaits);

    /** The history of a request is read. */
    void historyRead(Request request);

    /** Sets a limit of time for a stage, after which this is run. */
    void setLimit(Stage<?> stage, long nanos, Runnable act);

    /** Runs this after a time. */
    void runLater(long nanos, Runnable act);

    /** Waits until a stage is settled, or so many nanoseconds have passed, if they aren't negative. */
    void awaitStage(Stage<?> stage, long nanos);

    /** Waits until this holds of stages of a request, and says whether it had to. */
    boolean awaitScope(Request request, BooleanSupplier isSettled);

    /** Takes a ready stage in place of an executor. */
    void submit(ReadyStage task);

    /** Calls what Java's own classes have attached. */
    void callUserCode(Runnable act);

    /** Takes over the follow-ups of one thread, and the functions that it is to call. */
    void takeOver(Turn turn);

    /** Whether this exception ends a run, and isn't the outcome of the function that throws it. */
    boolean endsRun(Throwable thrown);

    /** A stage that is ready, for an executor. */
    interface ReadyStage {
        Stage<?> stage();

        /** Claims it, and gives what its thread has to do next. */
        Turn claim();
    }

    /** What a thread has to do, function by function. */
    interface Turn {
        /** Does all up to the next function, and says whether there is one. */
        boolean tellToNext();

        /** The next one's stage. */
        Stage<?> stage();

        /** Calls the next function, unless its stage is settled, and keeps what it returns or throws. */
        void callFunction();

        /** The exception that it has thrown, or null. */
        Throwable exception();

        /** Finishes the stage with what was kept. */
        void finishStage();
    }
}
