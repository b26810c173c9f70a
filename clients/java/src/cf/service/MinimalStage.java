package cf.service;

import cf.internal.Form;
import java.util.concurrent.Executor;
import java.util.concurrent.TimeUnit;
import java.util.function.Supplier;

/** A stage that has the methods of CompletionStage alone; its {@link #toCompletableFuture} is a copy. */
final class MinimalStage<T> extends Stage<T> {
    MinimalStage(Request request, int number, Form form, Object function, Executor executor) {
        super(request, number, form, function, executor);
    }

    @Override
    boolean isMinimal() {
        return true;
    }

    @Override
    public Stage<T> toCompletableFuture() {
        return copy(false);
    }

    @Override
    public T get() {
        throw refusal();
    }

    @Override
    public T get(long timeout, TimeUnit unit) {
        throw refusal();
    }

    @Override
    public T getNow(T valueIfAbsent) {
        throw refusal();
    }

    @Override
    public T join() {
        throw refusal();
    }

    @Override
    public T resultNow() {
        throw refusal();
    }

    @Override
    public Throwable exceptionNow() {
        throw refusal();
    }

    @Override
    public boolean complete(T value) {
        throw refusal();
    }

    @Override
    public boolean completeExceptionally(Throwable error) {
        throw refusal();
    }

    @Override
    public boolean cancel(boolean mayInterruptIfRunning) {
        throw refusal();
    }

    @Override
    public void obtrudeValue(T value) {
        throw refusal();
    }

    @Override
    public void obtrudeException(Throwable error) {
        throw refusal();
    }

    @Override
    public boolean isDone() {
        throw refusal();
    }

    @Override
    public boolean isCancelled() {
        throw refusal();
    }

    @Override
    public boolean isCompletedExceptionally() {
        throw refusal();
    }

    @Override
    public int getNumberOfDependents() {
        throw refusal();
    }

    @Override
    public Stage<T> completeAsync(Supplier<? extends T> supplier) {
        throw refusal();
    }

    @Override
    public Stage<T> completeAsync(Supplier<? extends T> supplier, Executor executor) {
        throw refusal();
    }

    @Override
    public Stage<T> orTimeout(long timeout, TimeUnit unit) {
        throw refusal();
    }

    @Override
    public Stage<T> completeOnTimeout(T value, long timeout, TimeUnit unit) {
        throw refusal();
    }

    private static UnsupportedOperationException refusal() {
        return new UnsupportedOperationException("a minimal stage has the methods of CompletionStage alone");
    }
}
