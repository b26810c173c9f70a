package cf.service;

import cf.internal.Form;
import java.time.Duration;
import java.util.Collections;
import java.util.List;
import java.util.Objects;
import java.util.concurrent.Callable;
import java.util.concurrent.CompletableFuture;
import java.util.concurrent.CompletionStage;
import java.util.concurrent.Executor;
import java.util.function.Supplier;

/**
 * Where stages are attached: a {@link Request}, or a {@link Scope} of it. Its methods have the names of the static ones of {@link CompletableFuture}.
 *
 * <p>All methods of a scope that has ended throw {@link ScopeEndedException} where they would attach a stage, and change nothing. A relay of a stage of
 * another request is of the scope, too.
 */
public abstract class StageFactory {
    StageFactory() {}

    /** The request of the stages. */
    public abstract Request request();

    /** The scope of the stages, or null. */
    abstract Scope within();

    /**
     * Attaches a stage whose function the service's executor calls.
     *
     * @throws java.util.concurrent.RejectedExecutionException the executor refuses
     */
    public <U> Stage<U> supplyAsync(Supplier<U> supplier) {
        return supplyAsync(supplier, request().service.executor());
    }

    /** Attaches a stage whose function this executor calls. */
    public <U> Stage<U> supplyAsync(Supplier<U> supplier, Executor executor) {
        return request().attachStarted(within(), Form.SUPPLY, Objects.requireNonNull(supplier), Objects.requireNonNull(executor));
    }

    /** Attaches a stage without a value, whose function the service's executor calls. */
    public Stage<Void> runAsync(Runnable runnable) {
        return runAsync(runnable, request().service.executor());
    }

    /** Attaches a stage without a value, whose function this executor calls. */
    public Stage<Void> runAsync(Runnable runnable, Executor executor) {
        return request().attachStarted(within(), Form.RUN_ASYNC, Objects.requireNonNull(runnable), Objects.requireNonNull(executor));
    }

    /** Attaches a stage without a function, which somebody settles: it stands for {@code new CompletableFuture<>()}. */
    public <U> Stage<U> promise() {
        return attachSource(false);
    }

    /** Attaches a stage that is completed with this value. */
    public <U> Stage<U> completedFuture(U value) {
        return completeNew(this.<U>promise(), value);
    }

    /** Attaches a stage that has failed with this exception. */
    public <U> Stage<U> failedFuture(Throwable error) {
        Objects.requireNonNull(error);
        return failNew(this.<U>promise(), error);
    }

    /** Attaches a stage that is completed with this value, and that has the methods of {@link CompletionStage} alone. */
    public <U> CompletionStage<U> completedStage(U value) {
        return completeNew(this.<U>attachSource(true), value);
    }

    /** Attaches a stage that has failed with this exception, and that has the methods of {@link CompletionStage} alone. */
    public <U> CompletionStage<U> failedStage(Throwable error) {
        Objects.requireNonNull(error);
        return failNew(this.<U>attachSource(true), error);
    }

    private <U> Stage<U> attachSource(boolean minimal) {
        return request().attach(within(), Form.SOURCE, null, null, null, null, minimal);
    }

    private static <U> Stage<U> completeNew(Stage<U> stage, U value) {
        stage.request.complete(stage.number, value);
        return stage;
    }

    private static <U> Stage<U> failNew(Stage<U> stage, Throwable error) {
        stage.request.fail(stage.number, error);
        return stage;
    }

    /**
     * As {@link CompletableFuture#allOf}: it waits until all are settled, even if one has failed. If several have, it fails with the exception of the
     * first one in the order of the arguments. Of n stages it takes n - 1 of this request, attached in one call; of stages of other requests also a
     * relay each.
     */
    public Stage<Void> allOf(CompletionStage<?>... of) {
        return request().gather(within(), Form.ALL_OF, of);
    }

    /**
     * As {@link CompletableFuture#anyOf}: it ends as the first that is settled, be it by an exception. If several are settled by one event, it takes
     * the first argument. Of n stages it takes n - 1 of this request, attached in one call; of stages of other requests also a relay each.
     */
    public Stage<Object> anyOf(CompletionStage<?>... of) {
        return request().gather(within(), Form.ANY_OF, of);
    }

    /**
     * Waits for the first of these that succeeds; the others go on, unless a scope ends with it. Of stages of this request it takes two, of others
     * also a relay each.
     *
     * <pre>{@code Stage<String> quote = scope.endsWith(scope.first(scope.supplyAsync(here), scope.supplyAsync(there)));}</pre>
     *
     * @return a stage with the value that is there first. Once all have failed, it fails with the exception of the last, which has those of the
     *         others as suppressed ones
     * @throws IllegalArgumentException there is no stage
     */
    @SafeVarargs
    @SuppressWarnings({"unchecked", "varargs"})
    public final <U> Stage<U> first(CompletionStage<? extends U>... of) {
        Request.Joined join = request().attachJoin(within(), 1, of.clone());
        return ((Stage<U>) join.stage).whenComplete((value, error) -> join.addFailuresTo(error)).named("first");
    }

    /**
     * Waits for all of these to succeed, and fails as soon as one does; the others go on, unless a scope ends with it. Of stages of this request it
     * takes two, of others also a relay each.
     *
     * @return a stage with the values, in this order; or it fails with the exception that comes first
     */
    @SafeVarargs
    @SuppressWarnings("varargs")
    public final <U> Stage<List<U>> all(CompletionStage<? extends U>... of) {
        if (of.length == 0) {
            return allOf().thenApply(none -> Collections.emptyList());
        }
        Request.Joined join = request().attachJoin(within(), of.length, of.clone());
        return join.stage.thenApply(none -> join.<U>values()).named("all");
    }

    /**
     * Waits until so many of these have succeeded; the others go on, unless a scope ends with it. A stage that is given twice counts twice. Of stages
     * of this request it takes two, of others also a relay each.
     *
     * @return a stage with the values that are there then, as many as are wanted at least, in this order. Once too many have failed, it fails with the
     *         exception of the last
     * @throws IllegalArgumentException none is wanted, or more than there are
     */
    @SafeVarargs
    @SuppressWarnings("varargs")
    public final <U> Stage<List<U>> quorum(int wanted, CompletionStage<? extends U>... of) {
        Request.Joined join = request().attachJoin(within(), wanted, of.clone());
        return join.stage.thenApply(none -> join.<U>values()).named("quorum");
    }

    /**
     * Attaches a relay: a stage of this request that ends as that stage does, be it of another request, another future, or any other
     * {@link CompletionStage}. A stage of this request is given back itself. Methods that take a second stage, or whose function gives one, make a
     * relay by themselves.
     *
     * <p>The other stage holds the relay, and so keeps this request reachable, until the relay ends: cancel it if the other stage lives on. A
     * relay that a method made is let go when the stage ends that needs it. If the relay is cancelled or times out, the other stage goes on; if the
     * other stage times out, so does the relay. A stage that is no {@code CompletableFuture} is asked by its {@code whenComplete}, and keeps a small
     * callback.
     *
     * <p>A stage behind one that timed out ends with a {@code CompletionException} around the {@code TimeoutException}. Its relay is told as timed
     * out in the history, if it was made for a stage that wraps each exception, as one of {@code thenCombine} or {@code thenCompose}; a relay of this
     * method is told as failed, with that {@code CompletionException}. If somebody failed the other stage with a {@code TimeoutException} by hand,
     * the relay has failed with that.
     */
    public <U> Stage<U> adopt(CompletionStage<U> of) {
        return request().attachAdopted(within(), Objects.requireNonNull(of));
    }

    /**
     * Tries this on the service's executor until it gives a value, or has failed too often. No thread waits during a pause.
     *
     * <pre>{@code Stage<String> rate = request.retry(Retry.of(3).delay(Duration.ofMillis(100)).on(IOException.class), () -> ask());}</pre>
     *
     * @return one stage with the value, or with the exception of the last try, which has those of the earlier ones as suppressed ones. Once it is
     *         settled otherwise, as by a cancellation, its try and its pause are cancelled. Beside it the first try takes three stages, and each
     *         further one three at most
     */
    public <U> Stage<U> retry(Retry retry, Callable<? extends U> action) {
        return retry(retry, action, request().service.executor());
    }

    /** The same, on this executor. */
    public <U> Stage<U> retry(Retry retry, Callable<? extends U> action, Executor executor) {
        return new Tries<U>(this, Objects.requireNonNull(retry), Objects.requireNonNull(action), Objects.requireNonNull(executor)).begin();
    }

    /** Opens a scope, within this one if this is one. It takes one stage. */
    public Scope scope() {
        return new Scope(request(), within());
    }

    /** Opens a scope that ends at the latest once this time has passed. */
    public Scope scope(Duration limit) {
        Objects.requireNonNull(limit);
        Scope scope = scope();
        scope.setLimit(limit);
        return scope;
    }
}
