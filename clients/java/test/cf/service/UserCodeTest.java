package cf.service;

import static cf.service.Checks.is;

import java.lang.management.ManagementFactory;
import java.lang.management.MonitorInfo;
import java.lang.reflect.Proxy;
import java.util.ArrayList;
import java.util.Arrays;
import java.util.List;
import java.util.Set;
import java.util.TreeSet;
import java.util.concurrent.CompletableFuture;
import java.util.concurrent.CompletionStage;
import java.util.concurrent.CountDownLatch;
import java.util.concurrent.Executor;
import java.util.concurrent.TimeUnit;

/** Does any code of a user's begin while its thread has a request's lock? */
final class UserCodeTest {
    /** What of a user's was called, and what of that under a lock. */
    private final Set<String> called = new TreeSet<>(), locked = new TreeSet<>();
    private final Executor executor = act -> {
        seen("an executor");
        act.run();
    };
    private final CountDownLatch told = new CountDownLatch(1);

    private UserCodeTest() {}

    /** What a user's code does first. */
    private synchronized <T> T seen(String what, T gives) {
        called.add(what);
        long own = Thread.currentThread().getId();
        for (MonitorInfo each : ManagementFactory.getThreadMXBean().getThreadInfo(new long[] {own}, true, false)[0].getLockedMonitors()) {
            if (each.getClassName().equals(Machine.class.getName())) {
                locked.add(what);
            }
        }
        return gives;
    }

    private void seen(String what) {
        seen(what, null);
    }

    /** An exception that is asked for a text, as each one is that gets wrapped. */
    private final class Loud extends RuntimeException {
        private static final long serialVersionUID = 1;

        @Override
        public String toString() {
            return seen("the text of an exception", "loud");
        }
    }

    private final class Value {
        @Override
        public String toString() {
            return seen("the text of a value", "value");
        }
    }

    private Object loud() {
        seen("a function");
        throw new Loud();
    }

    /** Somebody's stage. */
    private CompletionStage<Object> somebodys(CompletableFuture<Object> future) {
        @SuppressWarnings("unchecked")
        CompletionStage<Object> made = (CompletionStage<Object>) Proxy.newProxyInstance(getClass().getClassLoader(),
                new Class<?>[] {CompletionStage.class}, (proxy, method, given) -> {
                    seen("a stage of somebody's");
                    return method.invoke(future, given);
                });
        return made;
    }

    /** All kinds of functions behind a stage, also of other requests and of Java's own. */
    private void behind(Stage<Object> stage, Request other) {
        stage.thenApply(x -> seen("a function", x));
        stage.thenApplyAsync(x -> seen("a function", x));
        stage.handle((x, error) -> seen("a function", loud()));
        stage.whenComplete((x, error) -> loud());
        stage.exceptionally(error -> loud());
        stage.thenCompose(x -> seen("a function", somebodys(new CompletableFuture<>()))).cancel(true);
        stage.exceptionallyCompose(error -> seen("a function", other.failedFuture(new Loud())));
        stage.thenCombine(other.completedFuture(1), (x, y) -> seen("a function", x)).thenApply(x -> x);
        other.adopt(stage).thenApply(x -> x).handleAsync((x, error) -> loud());
        other.promise().applyToEither(stage, x -> seen("a function", x));
        CompletableFuture.allOf(stage).whenComplete((x, error) -> seen("what a class of Java's has attached"));
    }

    private void all() throws Exception {
        Contexts contexts = () -> {
            seen("a context");
            return executor;
        };
        Service service = new Service(executor).withDescribe(it ->
                seen("a describing function", String.valueOf(it))).withContexts(contexts).onEnd(history -> {
            seen("a hook");
            told.countDown();
        });
        for (boolean wraps : new boolean[] {false, true}) {
            Request request = service.request(), other = service.request();
            List<Runnable> acts = new ArrayList<>();
            for (int k = 0; k < 8; k++) {
                Stage<Object> source = request.promise(), stage = wraps ? source.thenApply(x -> x) : source;
                CompletableFuture<Object> outside = new CompletableFuture<>();
                behind(stage, other);
                request.adopt(outside).thenApply(x -> x);
                request.adopt(somebodys(outside)).thenApply(x -> x);
                acts.add(Arrays.<Runnable>asList(() -> source.complete(new Value()), () -> source.completeExceptionally(new Loud()), () -> source.cancel(true),
                        () -> Checks.timeOut(source), () -> outside.completeExceptionally(new Loud()), () -> source.completeAsync(this::loud),
                        () -> request.scope().endsWith(source), request::cancelAll).get(k));
            }
            acts.forEach(Runnable::run);
            for (Request each : Arrays.asList(request, other)) {
                each.history().toString();
                each.history().account();
                each.history().spans();
            }
            behind(request.failedFuture(new Loud()), other);
            Stage<Object> source = request.promise(), shown = source.thenApply(x -> x), next = source.thenApply(x -> x);
            CompletableFuture.allOf(shown).whenComplete((x, error) -> other.adopt(next)); // Which is settled, and told a moment later.
            source.completeExceptionally(new Loud());
            Stage<Object> settled = request.failedFuture(new Loud()), open = request.promise();
            settled.toString();
            open.toString();
            other.supplyAsync(this::loud).thenApply(x -> x);
            service.supplyAsync(this::loud);
            request.supplyAsync(() -> seen("a function", 1), request.delayedExecutor(0, TimeUnit.NANOSECONDS)).get(20, TimeUnit.SECONDS);
            request.close();
            other.close();
        }
        Flow flow = new Flow("order");
        Flow.Step<Object> promise = flow.promise(), failed = promise.thenApply(x -> loud()).named("fails"), behind = failed.thenApply(x -> x);
        Request begun = service.start(flow, new Value());
        is(begun.stage(behind).isCompletedExceptionally(), true);
        Request full = service.request().continueInNext();
        Stage<Object> first = full.promise();
        while (full.next() == null) {
            full.promise();
        }
        behind(first, full);
        first.completeExceptionally(new Loud());
        Checks.await(told);
    }

    /** All kinds of a user's code are called, none of it under a lock of a request's. */
    static void unlocked() throws Exception {
        UserCodeTest test = new UserCodeTest();
        test.all();
        is(test.locked.toString(), "[]");
        is(test.called.toString(), "[a context, a describing function, a function, a hook, a stage of somebody's, an executor, "
                + "the text of a value, the text of an exception, what a class of Java's has attached]");
        synchronized (Checks.SERVICE.request().lock()) {
            test.seen("what is under a lock");
        }
        is(test.locked.toString(), "[what is under a lock]");
    }
}
