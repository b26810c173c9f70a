package cf.store;

import cf.internal.Form;
import cf.internal.Host;
import cf.internal.Words;
import java.util.Arrays;
import java.util.Objects;
import java.util.concurrent.CompletableFuture;
import java.util.concurrent.ExecutionException;
import java.util.concurrent.TimeUnit;
import java.util.concurrent.TimeoutException;
import java.util.function.Function;

/**
 * A stage of a {@link StoredRequest}. What changes something is in the store when the call returns, and throws what {@link StoredRequest} says.
 */
public final class StoredStage {
    final StoredRequest request;
    final int number;
    final CompletableFuture<Object> future = new CompletableFuture<>();

    StoredStage(StoredRequest request, int number) {
        this.request = request;
        this.number = number;
    }

    /** Its number in the request. */
    public int number() {
        return number;
    }

    /** Its name in histories: that of its function, or of the promise. */
    public String name() {
        return request.withView(view -> view.spec(number).name);
    }

    /** Has a registered function called with the value of this stage. */
    public StoredStage then(String function) {
        return request.attachBehind(Form.APPLY, function, number);
    }

    /** Has a registered function called with the values of this stage and another one of the request. */
    public StoredStage combine(StoredStage other, String function) {
        return request.attachBehind(Form.COMBINE, function, number, request.numberOf(other));
    }

    /** Has a registered function called with the value of this stage or of another one of the request, whichever is settled first. */
    public StoredStage either(StoredStage other, String function) {
        return request.attachBehind(Form.APPLY_EITHER, function, number, request.numberOf(other));
    }

    /** Has a registered function called with the value, or null, and the {@link RemoteException}, or null. */
    public StoredStage handle(String function) {
        return request.attachBehind(Form.HANDLE, function, number);
    }

    /** Has a registered function called with the {@link RemoteException} that this stage ends in, if it does, and takes its result. */
    public StoredStage recover(String function) {
        return request.attachBehind(Form.EXCEPTIONALLY, function, number);
    }

    /** Has a registered function called as {@link #handle}. The new stage ends as this one does, unless the function throws. */
    public StoredStage whenDone(String function) {
        return request.attachBehind(Form.WHEN_COMPLETE, function, number);
    }

    /**
     * Has a function called that attaches stages to the request, and waits for one of them without holding a thread: {@link Functions#composing}
     * registers it. Two stages are attached: a promise, which any process settles alike that sees the given stage settled, and one that calls the
     * function and ends as that promise does.
     *
     * @return the stage that calls the function
     */
    public StoredStage compose(String function) {
        return request.compose(Form.COMPOSE, this, request.callSpec(function, true));
    }

    /**
     * Plans further tries, for the case that the process that runs this stage's function dies. The function may have done its work before, and does
     * it once more with each try. Each try takes one stage, and two where the stage composes. What an earlier try of a function that composes has
     * attached isn't attached once more where the function attaches the same, on its own thread: a stage of the same kind, name, function, arguments
     * and sources. What it doesn't attach again stays, and is run.
     *
     * @return the last try, which passes on the value of an earlier one
     * @throws IllegalArgumentException the stage has no function
     */
    public StoredStage again(int times) {
        StoredStage last = this;
        Form form = request.withView(view -> view.form(number));
        if (!form.calls) {
            throw new IllegalArgumentException("it has no function of its own");
        }
        for (int k = 0; k < times; k++) {
            last = form.composes ? request.compose(Form.EXCEPTIONALLY_COMPOSE, last, request.retrySpec(this))
                    : request.attach(Form.EXCEPTIONALLY, request.retrySpec(this), last.number);
        }
        return last;
    }

    /**
     * Settles the stage with a value of JSON's, unless it is settled. Any process may do that, as for an approval:
     * {@code service.open("order 17").stage("approval").complete("Ada")}.
     *
     * @return whether this call settled it
     */
    public boolean complete(Object value) {
        return request.settle(Words.complete(0, number, Words.NIL), value == null ? null : Json.write(value), number, false);
    }

    /**
     * Settles the stage with an exception, unless it is settled. It is seen as a {@link RemoteException}.
     *
     * @return whether this call settled it
     */
    public boolean fail(Throwable thrown) {
        return request.settle(Words.fail(0, number, 0), Json.write(RemoteException.fromThrowable(thrown).toMap()), number, false);
    }

    /**
     * Cancels the stage, unless it is settled, or its function runs in some process.
     *
     * @return whether it is cancelled after the call
     */
    public boolean cancel() {
        return request.settle(Words.cancel(0, number), null, number, true);
    }

    /**
     * Cancels the stage, unless it is settled, also while its function runs: its answer comes too late then. This cancels all of a request, the last
     * stage first, so that no function behind a cancelled one is called:
     *
     * <pre>{@code
     * int stages = 0;
     * while (request.stage(stages) != null) {
     *     stages++;
     * }
     * while (stages > 0) {
     *     request.stage(--stages).abandon();
     * }
     * request.end();
     * }</pre>
     *
     * @return whether it is cancelled after the call
     */
    public boolean abandon() {
        return request.settle(Words.cancel(0, number), null, number, false);
    }

    /**
     * Sets a timer in the store, by which the stage times out unless it is settled. Any process that works on the request fires it, also if this one
     * has ended; timers are looked for 50 times a second. A stage has one timer: a second call replaces the first.
     *
     * @return this stage itself
     */
    public StoredStage orTimeout(long timeout, TimeUnit unit) {
        double seconds = unit.toNanos(timeout) / 1e9;
        String took = name() + " took longer than " + (seconds == Math.rint(seconds) ? String.valueOf((long) seconds) : String.valueOf(seconds)) + " s";
        return request.setTimer(this, seconds, 'E', Json.write(new RemoteException("TimeoutError", took).toMap()));
    }

    /** Sets a timer in the store, by which the stage gets a value unless it is settled, as {@link #orTimeout}. */
    public StoredStage completeOnTimeout(Object value, long timeout, TimeUnit unit) {
        return request.setTimer(this, unit.toNanos(timeout) / 1e9, value == null ? 'N' : 'V', value == null ? new byte[0] : Json.write(value));
    }

    /**
     * Waits until the stage is settled, also while the store doesn't answer.
     *
     * @return its value
     * @throws ExecutionException it ended in a {@link RemoteException}, a {@link TimeoutException}, or the request can't be gone on with
     * @throws java.util.concurrent.CancellationException it was cancelled
     */
    public Object get() throws InterruptedException, ExecutionException {
        host().awaitSettled(this::name, future::isDone, -1);
        return future.get();
    }

    /** The same, for so long at most. */
    public Object get(long timeout, TimeUnit unit) throws InterruptedException, ExecutionException, TimeoutException {
        return future.get(host().awaitSettled(this::name, future::isDone, Math.max(0, unit.toNanos(timeout))) ? 0 : timeout, unit);
    }

    /** Whether it is settled, by what this process has read. */
    public boolean isDone() {
        host().noteLook();
        return future.isDone();
    }

    /** A future that ends as the stage does. To settle the future does nothing to the stage. */
    public CompletableFuture<Object> toFuture() {
        return future.thenApply(Function.identity());
    }

    Host host() {
        return request.host();
    }

    @Override
    public String toString() {
        return "stage " + number + " of " + request;
    }

    static int[] numbers(StoredRequest request, StoredStage... of) {
        return Arrays.stream(of).mapToInt(it -> request.numberOf(Objects.requireNonNull(it))).toArray();
    }
}
