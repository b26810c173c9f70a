package cf.service;

import static cf.service.Checks.is;
import static cf.service.Checks.SERVICE;

import cf.testing.Orders;
import java.util.ArrayList;
import java.util.Arrays;
import java.util.Collections;
import java.util.List;
import java.util.concurrent.CompletableFuture;
import java.util.concurrent.CountDownLatch;
import java.util.concurrent.ExecutorService;
import java.util.concurrent.Executors;
import java.util.concurrent.Future;
import java.util.concurrent.TimeUnit;

/** Requests that are closed, once or twice, by their functions and by threads that race. */
final class ClosingTest {
    private ClosingTest() {}

    static void closed() {
        Request closing = SERVICE.request();
        Stage<Integer> beforeClosing = closing.completedFuture(1);
        closing.close();
        closing.close();
        is(closing.history().events(), 2);
        is(beforeClosing.thenApply(x -> x + 1).join(), 2);
        is(closing.history().stages(), 2);
        for (int k = 0; k < 100; k++) {
            closing.close();
            Stage<Integer> waits = closing.promise();
            Stage<Integer> next = waits.thenApply(x -> x + 1);
            closing.close();
            waits.complete(k);
            is(next.join(), k + 1);
        }
    }

    /** Limits of time, and stages that functions gave, come also if the request is closed before. */
    static void closedBefore() throws Exception {
        Request closing = SERVICE.request();
        Stage<Integer> timed = closing.<Integer>promise().completeOnTimeout(5, 20, TimeUnit.MILLISECONDS), first = closing.promise();
        List<Stage<Integer>> given = new ArrayList<>();
        Stage<Integer> linked = first.thenCompose(x -> given.get(0)), behind = linked.thenApply(x -> x + 1);
        given.add(closing.promise());
        first.complete(1);
        closing.close();
        is(timed.get(20, TimeUnit.SECONDS), 5);
        is(linked.isDone(), false);
        closing.close();
        given.get(0).complete(6);
        is(linked.join() + behind.join(), 13);
        String[] ends = Checks.ends(closing.history());
        is(ends[2], ends[5]);
        Stage<Integer> later = closing.promise();
        closing.close();
        later.complete(8);
        is(later.join(), 8);
        // What executors are to call, they call.
        Stage<Integer> source = closing.promise();
        Stage<String> elsewhere = source.thenApplyAsync(x -> Thread.currentThread().getName(), run -> new Thread(run, "elsewhere").start());
        closing.close();
        source.complete(9);
        is(elsewhere.get(20, TimeUnit.SECONDS), "elsewhere");
        // The core goes to the next one, while there is a limit and afterwards.
        int live = Machine.liveCores();
        List<Stage<Integer>> limited = new ArrayList<>();
        for (int k = 0; k < 300; k++) {
            try (Request next = SERVICE.request()) {
                limited.add(next.<Integer>promise().orTimeout(1, TimeUnit.HOURS));
            }
        }
        is(Machine.liveCores() <= live + 10, true);
        for (Stage<Integer> each : limited) {
            is(each.complete(1), true);
        }
        is(Machine.liveCores() <= live + 10, true);
    }

    /** Functions close the request, and so do threads meanwhile, all under its lock. */
    static void closedWithin() throws Exception {
        Request closing = SERVICE.request();
        Stage<Object> beforeClosing = closing.promise();
        List<Stage<Object>> own = new ArrayList<>();
        own.add(beforeClosing.thenApply(x -> {
            closing.close();
            own.get(0).cancel(true);
            return 1;
        }));
        own.add(beforeClosing.thenApply(x -> {
            closing.close();
            own.get(1).complete("own");
            closing.close();
            return 1;
        }));
        beforeClosing.complete(1);
        is(own.get(0).isCancelled(), true);
        is(own.get(1).join(), "own");
        ExecutorService pool = Executors.newFixedThreadPool(8);
        for (int round = 0; round < 30; round++) {
            Request closedMeanwhile = SERVICE.request();
            List<Stage<Integer>> madeMeanwhile = Collections.synchronizedList(new ArrayList<>());
            Stage<Integer> start = closedMeanwhile.promise();
            madeMeanwhile.add(start);
            List<Future<?>> ends = new ArrayList<>();
            for (int t = 0; t < 8; t++) {
                int who = t;
                ends.add(pool.submit(() -> {
                    for (int k = 0; k < 30; k++) {
                        Stage<Integer> closingStage = madeMeanwhile.get((7 * who + k) % madeMeanwhile.size());
                        switch ((who + k) % 5) {
                            case 0: closedMeanwhile.close(); break;
                            case 1: madeMeanwhile.add(closingStage.thenApply(x -> x + 1)); break;
                            case 2: madeMeanwhile.add(closingStage.thenApplyAsync(x -> x + 1)); break;
                            case 3: closedMeanwhile.history().report(); break;
                            default: closingStage.complete(1);
                        }
                    }
                }));
            }
            for (Future<?> end : ends) {
                end.get(20, TimeUnit.SECONDS);
            }
            start.complete(1);
            for (Stage<Integer> closingStage : madeMeanwhile) {
                closingStage.get(20, TimeUnit.SECONDS);
            }
            closedMeanwhile.close();
        }
        pool.shutdown();
        Throwable[] wrong = new Throwable[1];
        Thread odd = new Thread(() -> {
            try (Request closed = SERVICE.request()) {
                closed.completedFuture(1);
            } catch (Throwable thrown) {
                wrong[0] = thrown;
            }
        }) {
            @Override
            public long getId() {
                return -7;
            }
        };
        odd.start();
        odd.join();
        is(wrong[0], null);
    }

    /**
     * Somebody else closes the request, twice, at any moment while stages are attached, linked, called and settled. In every order each ends with
     * what it would end with otherwise, and what an executor is to call isn't called by whoever settles the stage before it.
     */
    static void closedAtAnyMoment() {
        Orders.of(world -> {
            Request closing = world.service().request();
            List<Stage<Integer>> given = new ArrayList<>(), attached = new ArrayList<>();
            Stage<Integer> start = closing.promise(), linked = start.thenCompose(x -> given.get(0)), async = linked.thenApplyAsync(x -> x + 1);
            given.add(closing.promise());
            world.caller("closes").calls(closing::close).calls(closing::close);
            world.caller("settles").calls(start, it -> it.complete(1)).calls(given.get(0), it -> it.complete(5));
            world.calls("attaches", linked, it -> attached.add(it.thenApply(x -> x + 2)));
            world.atEnd(() -> linked.join() + async.join() + attached.get(0).join() == 18, "each ends with its value");
            world.atEnd(() -> closing.history().stages() == 6, "all are in the history");
            world.atEnd(() -> !closing.history().toString().contains("settles claims 3 apply"), "an executor's function is called by a worker");
            world.settles(linked, async);
        }).seconds(600).whole().check();
    }

    /** All open stages are cancelled, so that no function behind them is called; one that runs goes on, and comes too late. */
    static void cancelsAll() throws Exception {
        CountDownLatch runs = new CountDownLatch(1), may = new CountDownLatch(1);
        List<String> called = Collections.synchronizedList(new ArrayList<>());
        Request request = SERVICE.request();
        Stage<Integer> done = request.completedFuture(1), open = request.promise();
        Stage<Integer> running = request.supplyAsync(() -> {
            runs.countDown();
            Checks.await(may);
            called.add("runs");
            return 2;
        });
        Stage<Object> behind = open.handle((value, error) -> called.add("handle"));
        Stage<Object> any = request.anyOf(open, running, behind);
        Stage<Integer> elsewhere = request.adopt(new CompletableFuture<>());
        Stage<Integer> timed = request.<Integer>promise().orTimeout(1, TimeUnit.DAYS);
        Checks.await(runs);
        request.cancelAll();
        for (Stage<?> each : Arrays.asList(open, running, behind, any, elsewhere, timed)) {
            is(each.isCancelled(), true);
        }
        is(done.join(), 1);
        is(request.completedFuture(3).join(), 3);
        may.countDown();
        Checks.until(() -> request.history().toString().contains("too late"));
        is(called, Collections.singletonList("runs"));
        Flow flow = new Flow("cancelled");
        Flow.Step<Integer> first = flow.promise(), second = first.handle((value, error) -> 1);
        Request started = SERVICE.start(flow);
        started.cancelAll();
        is(started.stage(first).isCancelled() && started.stage(second).isCancelled(), true);
    }
}
