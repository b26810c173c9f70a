package cf.service;

import cf.service.Faults.Fault;
import java.time.Duration;
import java.util.ArrayList;
import java.util.HashSet;
import java.util.List;
import java.util.Set;
import java.util.concurrent.CancellationException;
import java.util.concurrent.CompletionException;
import java.util.concurrent.TimeUnit;

/**
 * Stages of a request that are cancelled together, at its end. What its methods attach is of it, and so is what the methods of its stages attach;
 * what the request's methods attach isn't. Scopes nest: a scope ends with the one around it.
 *
 * <pre>{@code
 * try (Scope scope = request.scope(Duration.ofSeconds(2))) {
 *     Stage<String> here = scope.supplyAsync(this::askHere), there = scope.supplyAsync(this::askThere);
 *     return scope.endsWith(scope.first(here, there).exceptionally(error -> "no quote")).join();
 * }
 * }</pre>
 *
 * <p>It ends by {@link #end} or {@link #close}, by its limit, with a stage ({@link #endsWith}), with the scope around it, or by
 * {@link Request#cancelAll}. In the same call all of it that is open is cancelled, each by one event; so whoever sees that it has ended finds nothing
 * of it open, and no function of it is begun any more. A function that runs goes on: it can ask {@link Stage#isStopping}, and
 * {@link Service#withInterrupts} interrupts it.
 *
 * <p>It takes one stage, named {@code scope}, and each stage of it costs one more crossing to the machine. Its stages don't go on in
 * {@link Request#next}: where the request is full, {@link RequestFullException} is thrown. Any thread may use it.
 */
public final class Scope extends StageFactory implements AutoCloseable {
    private final Request request;
    private final Scope outer;
    /** The source that is open as long as the scope is. */
    final Stage<Void> stage;

    // The request's lock guards these.
    /** Stages that have failed while nobody waited for them. */
    private final List<Stage<?>> failed = new ArrayList<>();
    private final List<Stage<?>> lastStages = new ArrayList<>();
    private final Set<Running> running = new HashSet<>();

    Scope(Request request, Scope outer) {
        this.outer = outer;
        stage = request.attachScope(outer);
        this.request = stage.request;
    }

    @Override
    public Request request() {
        return request;
    }

    @Override
    Scope within() {
        return this;
    }

    /** The scope around this one, or null. */
    Scope outer() {
        return outer;
    }

    /** Sets its name in histories, and gives the scope itself. */
    public Scope named(String name) {
        stage.named(name);
        return this;
    }

    /** The name that it was given, or else {@code scope}. */
    public String name() {
        return stage.name();
    }

    void setLimit(Duration limit) {
        request.setLimit(stage, nanos(limit), TimeUnit.NANOSECONDS, false, null);
    }

    /** All of a time, or the most that a long has. */
    static long nanos(Duration time) {
        try {
            return time.toNanos();
        } catch (ArithmeticException centuries) {
            return time.isNegative() ? Long.MIN_VALUE : Long.MAX_VALUE;
        }
    }

    /**
     * Has this scope end once a stage of the request is settled, in whichever way, in the same call. The stage may be of the scope, or not. One behind it
     * that isn't to be cancelled is attached by a method of the request: {@code request.allOf(stage).thenRun(..)}.
     *
     * @return that stage
     * @throws IllegalArgumentException the stage is of another request: {@link #adopt} it first
     */
    public <U> Stage<U> endsWith(Stage<U> last) {
        if (last.request != request) {
            throw new IllegalArgumentException("the stage is of another request: give the scope its adopt(stage)");
        }
        synchronized (request.lock()) {
            lastStages.add(last);
        }
        request.endWith(this, last);
        return last;
    }

    /** Ends it: all of it that is open is cancelled. If it has ended, nothing happens. */
    public void end() {
        if (!hasEnded()) {
            request.complete(stage.number, null);
        }
    }

    /** Whether it has ended. */
    public boolean hasEnded() {
        return stage.readOutcome() != null;
    }

    /**
     * Ends it. Where its {@link Service#withInterrupts service interrupts}, this waits until the functions of its stages that run in other threads have
     * ended; otherwise they may still run.
     */
    @Override
    public void close() {
        end();
        List<Running> left;
        synchronized (request.lock()) {
            left = new ArrayList<>(running);
        }
        left.forEach(Running::awaitEnd);
    }

    /**
     * Waits until all its stages are settled, also those of scopes within it, and those that are attached meanwhile. Once a stage of its own has failed
     * of which nobody takes the exception, this scope ends, and that is thrown. Somebody takes it if a stage or a join stands behind the stage, or has
     * asked for its result. A cancelled stage isn't a failure.
     *
     * <p>A promise that nobody settles is waited for until the scope ends. If all goes well, the scope is as before, and more can be attached.
     *
     * @throws CompletionException its cause is the first such exception, and the others are suppressed ones; or a {@code TimeoutException}, if the
     *         limit has ended the scope
     * @throws CancellationException the scope around it has ended, or all of the request was cancelled
     * @throws InterruptedException this thread was interrupted. The scope goes on
     */
    public void join() throws InterruptedException {
        while (request.watch == null ? waitsOn() : request.watch.awaitScope(request, this::isSettled)) {
            // What was attached meanwhile is waited for, too.
        }
        if (hasFailed()) {
            end();
        }
        CompletionException failure = null;
        Object told;
        boolean isLastSettled;
        synchronized (request.lock()) {
            for (Stage<?> each : failed) {
                if (isLeft(each)) {
                    Throwable error = ((Fault) each.outcome).rawError();
                    if (failure == null) {
                        failure = new CompletionException(error);
                    } else {
                        failure.addSuppressed(error);
                    }
                }
            }
            told = stage.outcome;
            isLastSettled = lastStages.stream().anyMatch(last -> last.outcome != null);
        }
        if (failure != null) {
            throw failure;
        }
        if (told instanceof Fault && ((Fault) told).isTimeout) {
            throw new CompletionException(((Fault) told).error());
        }
        if (told instanceof Fault && !isLastSettled) {
            throw new CancellationException("the scope was ended from outside");
        }
    }

    /** Waits for the stages that are open now, or until one fails. Whether there were any. */
    private boolean waitsOn() throws InterruptedException {
        List<Stage<?>> open;
        synchronized (request.lock()) {
            open = hasFailed() ? new ArrayList<>() : request.openStages(this);
        }
        if (!open.isEmpty()) {
            Waits.awaitAll(open, this::hasFailed);
        }
        return !open.isEmpty();
    }

    private boolean isSettled() {
        synchronized (request.lock()) {
            return hasFailed() || request.openStages(this).isEmpty();
        }
    }

    private boolean hasFailed() {
        synchronized (request.lock()) {
            return failed.stream().anyMatch(Scope::isLeft);
        }
    }

    /** Whether nobody takes the exception of a stage that has failed. */
    private static boolean isLeft(Stage<?> stage) {
        return stage.dependents == 0 && !stage.extras.isTaken;
    }

    /** A stage of it fails. The request's lock is held. */
    void addFailed(Stage<?> stage, Fault fault) {
        if (stage.function != Stage.ASIDE && !(fault.rawError() instanceof CancellationException)) {
            failed.add(stage);
        }
    }

    /** The functions of its stages, and of scopes within it, that run and may be interrupted. The request's lock is held. */
    Set<Running> running() {
        return running;
    }

    /** Whether a stage is of it, or of a scope within it. */
    boolean holds(Stage<?> stage) {
        Scope its = stage.scope();
        return its == this || its != null && holds(its.stage);
    }
}
