package cf.service;

import java.util.ArrayList;
import java.util.List;
import java.util.concurrent.Callable;
import java.util.concurrent.CompletionException;
import java.util.concurrent.Executor;
import java.util.concurrent.TimeUnit;
import java.util.function.Supplier;

/** The tries of one {@link StageFactory#retry}. They and their pauses are of a scope of their own, which ends with the answer. */
final class Tries<U> implements Supplier<U> {
    private final StageFactory within;
    private final Retry retry;
    private final Callable<? extends U> action;
    private final Executor executor;
    private Scope scope;
    private Stage<U> answer;
    /** One try comes behind the other, by events of the request. */
    private final List<Throwable> failures = new ArrayList<>();

    Tries(StageFactory within, Retry retry, Callable<? extends U> action, Executor executor) {
        this.within = within;
        this.retry = retry;
        this.action = action;
        this.executor = executor;
    }

    Stage<U> begin() {
        answer = within.<U>promise().named("retry");
        try {
            scope = within.scope().named("tries");
            scope.endsWith(answer);
            follow(scope.supplyAsync(this, executor), 1);
        } catch (Throwable refused) {
            answer.completeExceptionally(refused);
            throw refused;
        }
        return answer;
    }

    @Override
    public U get() {
        try {
            return action.call();
        } catch (Throwable error) {
            Request.<RuntimeException>rethrow(error);
            throw new AssertionError(error);
        }
    }

    private void follow(Stage<U> attempt, int number) {
        attempt.named("try " + number).handle((value, error) -> {
            try {
                end(number, value, error);
            } catch (Throwable refused) { // as of a request that is full
                answer.completeExceptionally(refused);
            }
            return null;
        });
    }

    private void end(int number, U value, Throwable error) {
        if (error == null) {
            answer.complete(value);
            return;
        }
        Throwable raw = error instanceof CompletionException && error.getCause() != null ? error.getCause() : error;
        if (retry.goesOn(number, raw)) {
            failures.add(raw);
            follow(attempt(number), number + 1);
        } else {
            Request.addSuppressed(raw, failures);
            answer.completeExceptionally(raw);
        }
    }

    /** The try behind this one, after its pause. */
    private Stage<U> attempt(int before) {
        long pause = retry.pauseAfter(before, within.request().watch == null);
        if (pause == 0) {
            return scope.supplyAsync(this, executor);
        }
        Stage<Void> paused = scope.<Void>promise().named("pause " + before);
        Stage<U> next = paused.thenApplyAsync(none -> get(), executor);
        paused.completeOnTimeout(null, pause, TimeUnit.NANOSECONDS);
        return next;
    }
}
