package cf.service;

import static cf.service.Checks.is;
import static cf.service.Checks.SERVICE;
import static cf.service.Checks.thrown;

import cf.service.Checks.Broken;
import java.util.Arrays;
import java.util.List;
import java.util.concurrent.CancellationException;
import java.util.concurrent.ExecutionException;
import java.util.concurrent.Executor;
import java.util.concurrent.TimeUnit;
import java.util.concurrent.TimeoutException;
import java.util.concurrent.atomic.AtomicInteger;
import java.util.function.Supplier;

/** What GUIDE.md says to write for limits, scopes, several stages, later starts and further tries. */
final class InsteadTest {
    private InsteadTest() {}

    private static boolean timesOut(Stage<?> stage) {
        return thrown(ExecutionException.class, () -> stage.get(20, TimeUnit.SECONDS)).getCause() instanceof TimeoutException;
    }

    /** A limit for a whole request, a scope, a limit in a flow; and parts that go on. */
    static void ends() throws Exception {
        Request limited = SERVICE.request();
        Scope within = limited.scope();
        Stage<Integer> backend = within.promise(), last = within.endsWith(backend.thenApply(x -> x + 1).orTimeout(10, TimeUnit.MILLISECONDS));
        Stage<Boolean> sent = limited.allOf(last).handleAsync((none, error) -> error.getCause() instanceof TimeoutException);
        is(timesOut(last), true);
        thrown(CancellationException.class, () -> backend.get(20, TimeUnit.SECONDS));
        is(sent.get(20, TimeUnit.SECONDS), true);
        Request scope = SERVICE.request();
        Stage<Integer> open = scope.promise();
        try {
            is(open.isDone(), false);
        } finally {
            scope.cancelAll();
        }
        is(open.isCancelled(), true);
        Request waits = SERVICE.request();
        Stage<Integer> part = waits.promise();
        waits.allOf(part, waits.promise()).cancel(true);
        is(part.isDone(), false);
        Flow flow = new Flow("limited");
        Flow.Step<Integer> step = flow.<Integer>promise().thenApply(x -> x + 1);
        is(timesOut(SERVICE.start(flow).stage(step).orTimeout(10, TimeUnit.MILLISECONDS)), true);
    }

    /** An allOf that gives errors, too. */
    static void ofSeveral() {
        Request request = SERVICE.request();
        List<Stage<Integer>> stages = Arrays.asList(request.promise(), request.promise(), request.promise());
        Stage<?>[] both = stages.stream().map(stage -> stage.<Object>handle((value, error) -> error == null ? value : error)).toArray(Stage<?>[]::new);
        Broken broken = new Broken();
        stages.get(1).completeExceptionally(broken);
        stages.get(2).complete(7);
        stages.get(0).complete(8);
        request.allOf(both).join();
        is(Arrays.asList(both[0].join(), both[1].join(), both[2].join()), Arrays.asList(8, broken, 7));
    }

    /** A start after a while, and tries with longer and longer waits. */
    static void later() {
        Request request = SERVICE.request();
        long began = System.nanoTime();
        is(request.supplyAsync(() -> 49, Service.delayedExecutor(20, TimeUnit.MILLISECONDS, Runnable::run)).join(), 49);
        is(System.nanoTime() - began >= 20_000_000, true);
        AtomicInteger asked = new AtomicInteger();
        Supplier<Integer> ask = () -> asked.incrementAndGet() < 3 ? Checks.breaks() : 49;
        Stage<Integer> told = request.supplyAsync(ask);
        for (int wait : new int[] {1, 2}) {
            Executor later = Service.delayedExecutor(wait, TimeUnit.MILLISECONDS, Runnable::run);
            told = told.exceptionallyCompose(error -> request.supplyAsync(ask, later));
        }
        is(told.join() + " by try " + asked, "49 by try 3");
    }
}
