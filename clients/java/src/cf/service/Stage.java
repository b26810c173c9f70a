package cf.service;

import cf.internal.Form;
import cf.internal.Text;
import cf.service.Faults.Fault;
import java.util.List;
import java.util.Objects;
import java.util.concurrent.CancellationException;
import java.util.concurrent.CompletableFuture;
import java.util.concurrent.CompletionException;
import java.util.concurrent.CompletionStage;
import java.util.concurrent.ExecutionException;
import java.util.concurrent.Executor;
import java.util.concurrent.TimeUnit;
import java.util.concurrent.TimeoutException;
import java.util.function.BiConsumer;
import java.util.function.BiFunction;
import java.util.function.Consumer;
import java.util.function.Function;
import java.util.function.Supplier;

/**
 * A {@link CompletableFuture} of a request: each call that changes something is an event of the request's history. Its state is decided by the
 * request's machine, which is proved. The part that it inherits of {@code CompletableFuture} gets the outcome, wakes the waiters, and
 * serves the JDK's classes.
 *
 * <p>A function without {@code Async} is called by the thread that settles the stage's source, once all else is settled that follows from that
 * event; if several are ready, that of the lowest stage comes first. If the source is settled, the attaching call calls it. Behind a stage that timed
 * out it is called on a daemon thread named {@code cf-timeout}. A function whose stage is settled before its turn isn't called. No lock is held
 * while a function is called. A function that runs goes on if its stage is settled meanwhile: its answer comes too late, and the history says so. It
 * can ask {@link #isStopping}, and {@link Service#withInterrupts} interrupts its thread.
 *
 * <p>A stage that a method of this one attaches is of the {@link Scope} of this one, if there is one.
 *
 * <p>Exceptions, their wrapping, interrupts and cancellation are as in {@code CompletableFuture}. A stage that is cancelled or times out has an
 * exception of its own, and so has each stage right behind one that failed, which costs what an exception costs. A call that finds its stack
 * nearly full throws {@link StackOverflowError} and changes nothing. What else differs from {@code CompletableFuture}:
 *
 * <table>
 * <caption>Differences, and how many events of 8 bytes a stage takes until it is settled</caption>
 * <tr><th>Methods</th><th>What differs</th><th>Events</th></tr>
 * <tr><td>{@code supplyAsync}, {@code runAsync}</td><td>methods of {@link Request}</td><td>3: attached, claimed, finished</td></tr>
 * <tr><td>{@code thenApply}, {@code thenAccept}, {@code thenRun}, {@code handle}, {@code whenComplete}, {@code exceptionally}, {@code thenCombine},
 * {@code thenAcceptBoth}, {@code runAfterBoth}, {@code applyToEither}, {@code acceptEither}, {@code runAfterEither}, with and without
 * {@code Async}</td><td>of several ready functions without {@code Async} the JDK calls the one that was attached last. If several sources are settled
 * by one event, an either form takes the first one. An executor gets a task only for a function that is to be called</td><td>3; 1 if the function
 * isn't called</td></tr>
 * <tr><td>{@code thenCompose}, {@code exceptionallyCompose}</td><td>take two stages</td><td>4, and 1 for the relay</td></tr>
 * <tr><td>{@code allOf}, {@code anyOf}</td><td>methods of {@link Request}; of n stages they take n - 1, in a {@link Flow} one</td><td>1
 * each</td></tr>
 * <tr><td>{@code completedFuture}, {@code failedFuture}, {@code completedStage}, {@code failedStage}</td><td>methods of
 * {@link Request}</td><td>2</td></tr>
 * <tr><td>{@code copy}, {@code minimalCompletionStage}</td><td></td><td>1</td></tr>
 * <tr><td>{@code newIncompleteFuture}</td><td>gives a {@code CompletableFuture} that is no stage. Other methods don't ask the
 * {@code newIncompleteFuture} of a subclass</td><td>0</td></tr>
 * <tr><td>{@code complete}, {@code completeExceptionally}, {@code cancel}, {@code orTimeout}, {@code completeOnTimeout},
 * {@code completeAsync}</td><td> the history tells of calls that came too late</td><td>1</td></tr>
 * <tr><td>{@code get}, {@code join}, {@code getNow}, {@code resultNow}, {@code exceptionNow}, {@code isDone}, {@code isCancelled},
 * {@code isCompletedExceptionally}, {@code toString}, {@code getNumberOfDependents}</td><td>tell what the request says. The JDK's own code, such as
 * {@code CompletableFuture.allOf(stage)} or {@code state()}, looks at fields that the settling thread writes a moment later, so it may find a stage
 * still running. That can happen only if another thread waits for the stage, or if the JDK has attached something to it.
 * {@code getNumberOfDependents} counts what was attached</td><td>0</td></tr>
 * <tr><td>{@code obtrudeValue}, {@code obtrudeException}</td><td>throw {@link UnsupportedOperationException}</td><td></td></tr>
 * <tr><td>a second stage of another request, or any other {@link CompletionStage}</td><td>gets a relay: {@link Request#adopt}</td><td>2
 * more</td></tr>
 * </table>
 *
 * <p>{@code CompletableFuture.allOf(stage, ..)} and other classes of the JDK work on stages, and what they attach isn't in the history.
 */
public class Stage<T> extends Waits<T> {
    /** The function of a source that stands for a scope, or for what a function gives: nobody waits for its end. */
    static final Object ASIDE = new Object();

    final Request request;
    final short number;
    final Form form;
    final Executor executor;

    // These are the request's, under its lock, or of the one thread that tells the news.
    Object function;
    short dependents;
    Stage<?> nextSettled, nextReady;

    /** Fields that few stages need. */
    static final class Extras {
        /** Relays of other requests that are settled as this stage is. */
        Link.Chain outsideLinks;
        Observer observers;
        /** Tell the machine again what isn't in the words, its deadlines, its joins and what it follows; none once it is settled. */
        List<Runnable> unwritten;
        /** The stage that it follows, or -1. */
        int followedStage = -1;
        /** The scope that it is of, or null. */
        Scope scope;
        /** Whether somebody has got its exception. */
        volatile boolean isTaken;
        /** Its function, while that can be interrupted. */
        Running running;
    }

    Stage(Request request, int number, Form form, Object function, Executor executor) {
        this.request = request;
        this.number = (short) number;
        this.form = form;
        this.function = function;
        this.executor = executor;
    }

    /** A promise, for subclasses. */
    protected Stage(Request request) {
        Request at = request;
        int place = at.reserve();
        while (place < 0) {
            at = at.nextOrFurther();
            place = at.reserve();
        }
        this.request = at;
        number = (short) place;
        form = Form.SOURCE;
        executor = null;
        at.enterReserved(this);
    }

    @Override
    final Object lock() {
        return request.lock();
    }

    /** Whether the machine has had deadlines or joins of it, or it followed a stage, which isn't in the words. */
    final boolean hasUnwritten() {
        Extras it = extras;
        return it != null && it.unwritten != null;
    }

    /** The scope that it is of, or null. Stages behind it are of it, too. */
    final Scope scope() {
        Extras it = extras;
        return it == null ? null : it.scope;
    }

    /** Somebody has got its outcome: if it is an exception, nobody else has to be told of that. */
    final void noteTaken() {
        Extras it = extras;
        if (it != null && it.scope != null && outcome != null) {
            it.isTaken = true;
        }
    }

    /** Settles the stage, and drops its function. */
    @Override
    final void setOutcome(Object outcome) {
        function = null;
        super.setOutcome(outcome);
    }

    /** The request that it belongs to. */
    public Request request() {
        return request;
    }

    /** Its number in the request's history. */
    public int number() {
        return number;
    }

    /** Sets its name in histories, and gives the stage itself. */
    public Stage<T> named(String name) {
        request.setName(number, name);
        return this;
    }

    /** The name that it was given, or else its form and number. */
    public String name() {
        return request.nameOf(this);
    }

    // Attaching.

    @Override
    public <U> Stage<U> thenApply(Function<? super T, ? extends U> fn) {
        return attachBehind(Form.APPLY, fn, null);
    }

    @Override
    public <U> Stage<U> thenApplyAsync(Function<? super T, ? extends U> fn) {
        return attachBehind(Form.APPLY, fn, defaultExecutor());
    }

    @Override
    public <U> Stage<U> thenApplyAsync(Function<? super T, ? extends U> fn, Executor executor) {
        return attachBehind(Form.APPLY, fn, Objects.requireNonNull(executor));
    }

    @Override
    public Stage<Void> thenAccept(Consumer<? super T> action) {
        return attachBehind(Form.ACCEPT, action, null);
    }

    @Override
    public Stage<Void> thenAcceptAsync(Consumer<? super T> action) {
        return attachBehind(Form.ACCEPT, action, defaultExecutor());
    }

    @Override
    public Stage<Void> thenAcceptAsync(Consumer<? super T> action, Executor executor) {
        return attachBehind(Form.ACCEPT, action, Objects.requireNonNull(executor));
    }

    @Override
    public Stage<Void> thenRun(Runnable action) {
        return attachBehind(Form.THEN_RUN, action, null);
    }

    @Override
    public Stage<Void> thenRunAsync(Runnable action) {
        return attachBehind(Form.THEN_RUN, action, defaultExecutor());
    }

    @Override
    public Stage<Void> thenRunAsync(Runnable action, Executor executor) {
        return attachBehind(Form.THEN_RUN, action, Objects.requireNonNull(executor));
    }

    @Override
    public <U> Stage<U> thenCompose(Function<? super T, ? extends CompletionStage<U>> fn) {
        return attachBehind(Form.COMPOSE, fn, null);
    }

    @Override
    public <U> Stage<U> thenComposeAsync(Function<? super T, ? extends CompletionStage<U>> fn) {
        return attachBehind(Form.COMPOSE, fn, defaultExecutor());
    }

    @Override
    public <U> Stage<U> thenComposeAsync(Function<? super T, ? extends CompletionStage<U>> fn, Executor executor) {
        return attachBehind(Form.COMPOSE, fn, Objects.requireNonNull(executor));
    }

    @Override
    public <U> Stage<U> handle(BiFunction<? super T, Throwable, ? extends U> fn) {
        return attachBehind(Form.HANDLE, fn, null);
    }

    @Override
    public <U> Stage<U> handleAsync(BiFunction<? super T, Throwable, ? extends U> fn) {
        return attachBehind(Form.HANDLE, fn, defaultExecutor());
    }

    @Override
    public <U> Stage<U> handleAsync(BiFunction<? super T, Throwable, ? extends U> fn, Executor executor) {
        return attachBehind(Form.HANDLE, fn, Objects.requireNonNull(executor));
    }

    @Override
    public Stage<T> whenComplete(BiConsumer<? super T, ? super Throwable> action) {
        return attachBehind(Form.WHEN_COMPLETE, action, null);
    }

    @Override
    public Stage<T> whenCompleteAsync(BiConsumer<? super T, ? super Throwable> action) {
        return attachBehind(Form.WHEN_COMPLETE, action, defaultExecutor());
    }

    @Override
    public Stage<T> whenCompleteAsync(BiConsumer<? super T, ? super Throwable> action, Executor executor) {
        return attachBehind(Form.WHEN_COMPLETE, action, Objects.requireNonNull(executor));
    }

    @Override
    public Stage<T> exceptionally(Function<Throwable, ? extends T> fn) {
        return attachBehind(Form.EXCEPTIONALLY, fn, null);
    }

    @Override
    public Stage<T> exceptionallyAsync(Function<Throwable, ? extends T> fn) {
        return attachBehind(Form.EXCEPTIONALLY, fn, defaultExecutor());
    }

    @Override
    public Stage<T> exceptionallyAsync(Function<Throwable, ? extends T> fn, Executor executor) {
        return attachBehind(Form.EXCEPTIONALLY, fn, Objects.requireNonNull(executor));
    }

    @Override
    public Stage<T> exceptionallyCompose(Function<Throwable, ? extends CompletionStage<T>> fn) {
        return attachBehind(Form.EXCEPTIONALLY_COMPOSE, fn, null);
    }

    @Override
    public Stage<T> exceptionallyComposeAsync(Function<Throwable, ? extends CompletionStage<T>> fn) {
        return attachBehind(Form.EXCEPTIONALLY_COMPOSE, fn, defaultExecutor());
    }

    @Override
    public Stage<T> exceptionallyComposeAsync(Function<Throwable, ? extends CompletionStage<T>> fn, Executor executor) {
        return attachBehind(Form.EXCEPTIONALLY_COMPOSE, fn, Objects.requireNonNull(executor));
    }

    @Override
    public <U, V> Stage<V> thenCombine(CompletionStage<? extends U> other, BiFunction<? super T, ? super U, ? extends V> fn) {
        return attachBehind(Form.COMBINE, other, fn, null);
    }

    @Override
    public <U, V> Stage<V> thenCombineAsync(CompletionStage<? extends U> other, BiFunction<? super T, ? super U, ? extends V> fn) {
        return attachBehind(Form.COMBINE, other, fn, defaultExecutor());
    }

    @Override
    public <U, V> Stage<V> thenCombineAsync(CompletionStage<? extends U> other, BiFunction<? super T, ? super U, ? extends V> fn, Executor executor) {
        return attachBehind(Form.COMBINE, other, fn, Objects.requireNonNull(executor));
    }

    @Override
    public <U> Stage<Void> thenAcceptBoth(CompletionStage<? extends U> other, BiConsumer<? super T, ? super U> action) {
        return attachBehind(Form.ACCEPT_BOTH, other, action, null);
    }

    @Override
    public <U> Stage<Void> thenAcceptBothAsync(CompletionStage<? extends U> other, BiConsumer<? super T, ? super U> action) {
        return attachBehind(Form.ACCEPT_BOTH, other, action, defaultExecutor());
    }

    @Override
    public <U> Stage<Void> thenAcceptBothAsync(CompletionStage<? extends U> other, BiConsumer<? super T, ? super U> action, Executor executor) {
        return attachBehind(Form.ACCEPT_BOTH, other, action, Objects.requireNonNull(executor));
    }

    @Override
    public Stage<Void> runAfterBoth(CompletionStage<?> other, Runnable action) {
        return attachBehind(Form.RUN_BOTH, other, action, null);
    }

    @Override
    public Stage<Void> runAfterBothAsync(CompletionStage<?> other, Runnable action) {
        return attachBehind(Form.RUN_BOTH, other, action, defaultExecutor());
    }

    @Override
    public Stage<Void> runAfterBothAsync(CompletionStage<?> other, Runnable action, Executor executor) {
        return attachBehind(Form.RUN_BOTH, other, action, Objects.requireNonNull(executor));
    }

    @Override
    public <U> Stage<U> applyToEither(CompletionStage<? extends T> other, Function<? super T, U> fn) {
        return attachBehind(Form.APPLY_EITHER, other, fn, null);
    }

    @Override
    public <U> Stage<U> applyToEitherAsync(CompletionStage<? extends T> other, Function<? super T, U> fn) {
        return attachBehind(Form.APPLY_EITHER, other, fn, defaultExecutor());
    }

    @Override
    public <U> Stage<U> applyToEitherAsync(CompletionStage<? extends T> other, Function<? super T, U> fn, Executor executor) {
        return attachBehind(Form.APPLY_EITHER, other, fn, Objects.requireNonNull(executor));
    }

    @Override
    public Stage<Void> acceptEither(CompletionStage<? extends T> other, Consumer<? super T> action) {
        return attachBehind(Form.ACCEPT_EITHER, other, action, null);
    }

    @Override
    public Stage<Void> acceptEitherAsync(CompletionStage<? extends T> other, Consumer<? super T> action) {
        return attachBehind(Form.ACCEPT_EITHER, other, action, defaultExecutor());
    }

    @Override
    public Stage<Void> acceptEitherAsync(CompletionStage<? extends T> other, Consumer<? super T> action, Executor executor) {
        return attachBehind(Form.ACCEPT_EITHER, other, action, Objects.requireNonNull(executor));
    }

    @Override
    public Stage<Void> runAfterEither(CompletionStage<?> other, Runnable action) {
        return attachBehind(Form.RUN_EITHER, other, action, null);
    }

    @Override
    public Stage<Void> runAfterEitherAsync(CompletionStage<?> other, Runnable action) {
        return attachBehind(Form.RUN_EITHER, other, action, defaultExecutor());
    }

    @Override
    public Stage<Void> runAfterEitherAsync(CompletionStage<?> other, Runnable action, Executor executor) {
        return attachBehind(Form.RUN_EITHER, other, action, Objects.requireNonNull(executor));
    }

    private <U> Stage<U> attachBehind(Form form, Object function, Executor executor) {
        return request.attach(scope(), form, this, null, Objects.requireNonNull(function), executor, isMinimal());
    }

    private <U> Stage<U> attachBehind(Form form, CompletionStage<?> other, Object function, Executor executor) {
        Objects.requireNonNull(function);
        return request.attach(scope(), form, this, Objects.requireNonNull(other), function, executor, isMinimal());
    }

    @Override
    public Stage<T> copy() {
        return copy(isMinimal());
    }

    @Override
    public CompletionStage<T> minimalCompletionStage() {
        return copy(true);
    }

    Stage<T> copy(boolean minimal) {
        return request.attach(scope(), Form.ANY_OF, this, null, null, null, minimal);
    }

    boolean isMinimal() {
        return false;
    }

    @Override
    public Stage<T> toCompletableFuture() {
        return this;
    }

    /**
     * A CompletableFuture that is no stage. What Java's own methods make by this, as {@code anyOf} and the either forms do, they settle past
     * any method, of which a request wouldn't hear. {@link Request#promise} makes a stage.
     */
    @Override
    public <U> CompletableFuture<U> newIncompleteFuture() {
        return new CompletableFuture<>();
    }

    @Override
    public Executor defaultExecutor() {
        return request.service.executor();
    }

    // Settling.

    @Override
    public boolean complete(T value) {
        return request.complete(number, value);
    }

    @Override
    public boolean completeExceptionally(Throwable error) {
        return request.fail(number, Objects.requireNonNull(error));
    }

    @Override
    public boolean cancel(boolean mayInterruptIfRunning) {
        return request.cancel(number) || isCancelled();
    }

    @Override
    public Stage<T> completeAsync(Supplier<? extends T> supplier) {
        return completeAsync(supplier, defaultExecutor());
    }

    @Override
    @SuppressWarnings("unchecked")
    public Stage<T> completeAsync(Supplier<? extends T> supplier, Executor executor) {
        Object function = request.service.withContext(Objects.requireNonNull(supplier));
        executor.execute((Runnable & AsynchronousCompletionTask) () -> {
            if (outcome == null) {
                T value;
                try {
                    value = (T) ContextFunction.call(Form.SUPPLY, function, null, null);
                } catch (Throwable error) {
                    completeExceptionally(error instanceof CompletionException ? error : new CompletionException(error));
                    return;
                }
                complete(value);
            }
        });
        return this;
    }

    @Override
    public Stage<T> orTimeout(long timeout, TimeUnit unit) {
        request.setLimit(this, timeout, Objects.requireNonNull(unit), false, null);
        return this;
    }

    @Override
    public Stage<T> completeOnTimeout(T value, long timeout, TimeUnit unit) {
        request.setLimit(this, timeout, Objects.requireNonNull(unit), true, value);
        return this;
    }

    /** Refused: a settled stage keeps its outcome. */
    @Override
    public void obtrudeValue(T value) {
        throw new UnsupportedOperationException("a settled stage keeps its outcome");
    }

    /** Refused: a settled stage keeps its outcome. */
    @Override
    public void obtrudeException(Throwable error) {
        Objects.requireNonNull(error);
        throw new UnsupportedOperationException("a settled stage keeps its outcome");
    }

    // Asking.

    @Override
    public boolean isDone() {
        return readOutcome() != null;
    }

    @Override
    public boolean isCancelled() {
        Object told = readOutcome();
        return told instanceof Fault && ((Fault) told).isCancellation();
    }

    @Override
    public boolean isCompletedExceptionally() {
        return readOutcome() instanceof Fault;
    }

    @Override
    public T join() {
        Object told = readOutcome(true);
        try {
            return told != null || request.watch != null ? valueForJoin(awaitOutcome(told, -1)) : super.join();
        } finally {
            noteTaken();
        }
    }

    @Override
    public T getNow(T valueIfAbsent) {
        Object told = readOutcome();
        noteTaken();
        return told != null ? valueForJoin(told) : valueIfAbsent;
    }

    @Override
    public T get() throws InterruptedException, ExecutionException {
        Object told = readOutcome(true);
        try {
            return told != null || request.watch != null ? valueForGet(awaitOutcome(told, -1)) : super.get();
        } finally {
            noteTaken();
        }
    }

    @Override
    public T get(long timeout, TimeUnit unit) throws InterruptedException, ExecutionException, TimeoutException {
        Objects.requireNonNull(unit);
        Object told = readOutcome(timeout > 0);
        if (told == null && request.watch != null) {
            told = timeout > 0 ? awaitOutcome(null, unit.toNanos(timeout)) : null;
            if (told == null) {
                throw new TimeoutException();
            }
        }
        try {
            return told != null ? valueForGet(told) : super.get(timeout, unit);
        } finally {
            noteTaken();
        }
    }

    /** The outcome, for which a watch waits, unless it is given. */
    private Object awaitOutcome(Object told, long nanos) {
        if (told == null) {
            request.watch.awaitStage(this, nanos);
        }
        return told != null ? told : readOutcome(true);
    }

    /** The value of a stage that has one, as of Java 19. */
    public T resultNow() {
        Object told = readOutcome();
        if (told == null || told instanceof Fault) {
            throw new IllegalStateException(told == null ? "the stage isn't settled" : "the stage has no value");
        }
        return valueForJoin(told);
    }

    /** The exception of a stage that failed, as of Java 19: that which was thrown. */
    public Throwable exceptionNow() {
        if (!isCompletedExceptionally() || isCancelled()) {
            throw new IllegalStateException(outcome == null ? "the stage isn't settled" : "the stage hasn't failed");
        }
        noteTaken();
        return cause(((Fault) outcome).error());
    }

    @Override
    public int getNumberOfDependents() {
        return outcome != null ? 0 : dependents;
    }

    /**
     * Whether the function that this thread calls is to stop, since its stage was settled otherwise: its answer comes too late. False where this thread
     * calls no stage's function. It takes no lock as a rule, so a loop may ask at each turn.
     */
    public static boolean isStopping() {
        return FollowUps.isStopping();
    }

    /** Its request, number and name, and what it ended as, or what it waits for. */
    @Override
    public String toString() {
        Object told = this.outcome;
        String state = told == null ? dependents == 0 ? "Not completed" : "Not completed, " + dependents + " dependents"
                : told instanceof Fault ? "Completed exceptionally: " + Text.describe(request.describe, ((Fault) told).error())
                : "Completed normally";
        String waits = told == null ? request.waitsFor(this) : "";
        return Text.escape(getClass().getName() + "@" + Integer.toHexString(hashCode()) + "[" + request.name() + ": " + request.numberedName(this)
                + ": " + state + waits + "]");
    }

    @SuppressWarnings("unchecked")
    private T valueForJoin(Object told) {
        if (told == NIL) {
            return null;
        }
        if (told instanceof Fault) {
            Throwable error = ((Fault) told).error();
            if (error instanceof CancellationException) {
                throw (CancellationException) error;
            }
            throw error instanceof CompletionException ? (CompletionException) error : new CompletionException(error);
        }
        return (T) told;
    }

    @SuppressWarnings("unchecked")
    private T valueForGet(Object told) throws ExecutionException {
        if (told == NIL) {
            return null;
        }
        if (told instanceof Fault) {
            Throwable error = ((Fault) told).error();
            if (error instanceof CancellationException) {
                throw (CancellationException) error;
            }
            throw new ExecutionException(cause(error));
        }
        return (T) told;
    }

    private static Throwable cause(Throwable error) {
        Throwable cause = error instanceof CompletionException ? error.getCause() : null;
        return cause != null ? cause : error;
    }

    // Reading and recording.

    @Override
    final Object readOutcome() {
        return readOutcome(false);
    }

    /** The same, for a reader that goes on at once, or waits if the stage isn't settled. */
    final Object readOutcome(boolean orWaits) {
        Object seen = super.readOutcome();
        if (request.watch != null) {
            request.watch.stageRead(request, number, orWaits);
        }
        return seen;
    }

    /** Wakes the waiters, and records the stage. */
    @Override
    final void wakeWaiters() {
        try {
            super.wakeWaiters();
        } finally {
            Recorder recorder = Recorder.current();
            if (recorder != null && recorder.takesStages()) {
                recorder.recordStage(request.name(), number, form.text, request.numberedName(this),
                        Text.describe(request.describe, outcome == NIL ? null : outcome instanceof Fault ? ((Fault) outcome).error() : outcome));
            }
        }
    }
}
