package cf.service;

import cf.internal.Ends;
import cf.internal.Watch;
import cf.internal.WatchedServices;
import java.time.Duration;
import java.util.Objects;
import java.util.concurrent.CompletableFuture;
import java.util.concurrent.Executor;
import java.util.concurrent.ForkJoinPool;
import java.util.concurrent.TimeUnit;
import java.util.concurrent.atomic.AtomicLong;
import java.util.function.Consumer;
import java.util.function.Supplier;

/**
 * Opens requests. It has the executor for functions of {@code Async} stages without one, the texts that its requests make of values, the contexts of
 * their functions, and the hook for their ends. A process needs one service. Any thread may use it.
 *
 * <p>It has no threads of its own, and needs no closing: shut the executor down yourself. A {@link Meter} tells which of its requests are open.
 */
public final class Service {
    /** For how many stages a request has room at first; more is made where it is needed. */
    private static final int ROOM = Math.max(0, Math.min(Integer.getInteger("cf.room", 32), Machine.MOST_STAGES));

    private final Executor executor;
    private final Describe describe;
    /** Null where nothing goes along with functions. */
    private final Contexts contexts;
    /** Null without a hook. */
    private final Ends<History> ends;
    /** Null where nothing is counted. */
    private final Meter meter;
    private final AtomicLong requests;
    /** Whether its requests go on in further ones. */
    private final boolean isContinued;
    /** Whether functions are interrupted. */
    private final boolean interrupts;
    /** The test that runs it, or null. */
    final Watch watch;

    static {
        WatchedServices.setMaker((executor, watch) -> new Service(executor, Describe.ALL, null, null, null, new AtomicLong(), false, false, watch));
    }

    /** With the executor that {@link CompletableFuture} uses if none is given: the common pool, or a thread for each task if that has one thread. */
    public Service() {
        this(commonExecutor());
    }

    /**
     * With this executor.
     *
     * @param executor calls the functions of {@code Async} stages. If it refuses one, {@code supplyAsync} and {@code runAsync} throw its
     *        {@link java.util.concurrent.RejectedExecutionException}, and a stage that becomes ready later fails with that
     */
    public Service(Executor executor) {
        this(Objects.requireNonNull(executor), Describe.ALL, null, null, null, new AtomicLong(), false, false, null);
    }

    private Service(Executor executor, Describe describe, Contexts contexts, Ends<History> ends, Meter meter, AtomicLong requests,
            boolean goesOn, boolean interrupts, Watch watch) {
        this.executor = executor;
        this.describe = describe;
        this.contexts = contexts;
        this.ends = ends;
        this.meter = meter;
        this.requests = requests;
        this.isContinued = goesOn;
        this.interrupts = interrupts;
        this.watch = watch;
    }

    /** A service with the same executor, whose histories, texts and recordings show values and exceptions as this makes texts of them. */
    public Service withDescribe(Describe describe) {
        return new Service(executor, Objects.requireNonNull(describe), contexts, ends, meter, requests, isContinued, interrupts, watch);
    }

    /**
     * A service with the same executor, whose functions are called within the context of the place where each was attached. A function of a flow is
     * called within that of the place where its request was opened.
     */
    public Service withContexts(Contexts contexts) {
        return new Service(executor, describe, Objects.requireNonNull(contexts), ends, meter, requests, isContinued, interrupts, watch);
    }

    /**
     * A service with the same executor, which hands the history of each request to this hook, once: when the request was closed, and the stages are
     * settled that it had then. Stages that are attached later aren't in it. A request of one stage ({@link #supplyAsync}) is over once that is settled; if
     * more stages were attached by then, close {@code stage.request()}.
     *
     * <p>The hook is called on the thread {@code cf-ends}, with one request after another, and within the context of the place where the request was
     * opened. So it delays no request. What it throws is logged as a warning of {@code cf.service}. While 2,048 requests wait for it, further ones
     * aren't told, and one warning says so. The thread is no daemon: the JVM waits for it, unless {@code System.exit} ends the JVM.
     */
    public Service onEnd(Consumer<? super History> hook) {
        Ends<History> told = new Ends<>(Objects.requireNonNull(hook), "cf.service");
        return new Service(executor, describe, contexts, told, meter, requests, isContinued, interrupts, watch);
    }

    /** A service with the same executor. The meter tells which of its requests are open, and counts what happened in those that are over. */
    public Service withMeter(Meter meter) {
        return new Service(executor, describe, contexts, ends, Objects.requireNonNull(meter), requests, isContinued, interrupts, watch);
    }

    /** A service with the same executor, each of whose requests {@link Request#continueInNext continues in a next one} if it is full. */
    public Service withNextRequests() {
        return new Service(executor, describe, contexts, ends, meter, requests, true, interrupts, watch);
    }

    /**
     * A service with the same executor, which interrupts the thread of a function once its stage is settled otherwise, as by a cancellation, a limit or the
     * end of a {@link Scope}. A thread that has gone on to another function isn't interrupted, and one that comes back to its executor isn't left
     * interrupted. Each call of a function takes the request's lock once more.
     */
    public Service withInterrupts() {
        return new Service(executor, describe, contexts, ends, meter, requests, isContinued, true, watch);
    }

    /**
     * Opens a request.
     *
     * @param name its name in histories and logs, which always show it: put no secret into it. Several requests may have one name
     */
    public Request request(String name) {
        return request(name, describe);
    }

    /** Opens a request that tells its values and exceptions by this function. */
    public Request request(String name, Describe describe) {
        return continued(new Request(this, Objects.requireNonNull(name), null, ROOM, Objects.requireNonNull(describe)));
    }

    /**
     * Opens a request whose stages are all of a scope that ends once this time has passed: what is open then is cancelled, and nothing can be attached
     * any more. It takes one stage. Close the request once its stages are settled, so that the limit needn't come.
     */
    public Request request(String name, Duration limit) {
        return request(name).limited(Objects.requireNonNull(limit));
    }

    /** Opens a request that is named by a number, as {@code request 17}. */
    public Request request() {
        return request("request " + requests.getAndIncrement());
    }

    /** Opens a request of one stage, whose function the executor calls. The request is closed once that stage is settled. */
    public <T> Stage<T> supplyAsync(Supplier<T> supplier) {
        return Request.oneCall(this, supplier);
    }

    /**
     * Opens a request with the stages of a flow, and completes its promises with these values, in their order. {@link Request#stage} gives the stage
     * of a step. Promises for which there is no value stay open.
     *
     * @throws IllegalArgumentException where there are more values than promises
     */
    public Request start(Flow flow, Object... given) {
        if (given.length > flow.promiseCount()) {
            throw new IllegalArgumentException(given.length + " values for " + flow.promiseCount() + " promises");
        }
        Request request = continued(new Request(this, flow.name(), flow, 0, describe));
        request.startFlow(given);
        return request;
    }

    private Request continued(Request request) {
        return isContinued ? request.continueInNext() : request;
    }

    /** An executor that hands each task to another one after a time, as {@link CompletableFuture}'s of that name. */
    public static Executor delayedExecutor(long delay, TimeUnit unit, Executor executor) {
        Objects.requireNonNull(unit);
        Objects.requireNonNull(executor);
        return act -> Clock.runAfter(delay, unit, () -> Request.execute(executor, act));
    }

    boolean interrupts() {
        return interrupts;
    }

    Executor executor() {
        return executor;
    }

    Describe describe() {
        return describe;
    }

    Ends<History> ends() {
        return ends;
    }

    Meter meter() {
        return meter;
    }

    /** Whether anybody is told of a request that is over. */
    boolean tellsEnds() {
        return ends != null || meter != null;
    }

    /** The contexts of this place, or null. */
    Executor captureContext() {
        return contexts == null ? null : contexts.capture();
    }

    /** A function with its context, unless it has that already. */
    Object withContext(Object function) {
        return contexts == null || function == null || function instanceof ContextFunction ? function
                : new ContextFunction(contexts.capture(), function);
    }

    /** Java's rule: the common pool, or a thread for each task where that has but one. */
    private static Executor commonExecutor() {
        try {
            return (Executor) CompletableFuture.class.getMethod("defaultExecutor").invoke(new CompletableFuture<>());
        } catch (ReflectiveOperationException eight) {
            return ForkJoinPool.getCommonPoolParallelism() > 1 ? ForkJoinPool.commonPool() : act -> new Thread(act).start();
        }
    }
}
