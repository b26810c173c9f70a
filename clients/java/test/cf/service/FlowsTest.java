package cf.service;

import static cf.service.Checks.INLINE;
import static cf.service.Checks.is;
import static cf.service.Checks.SERVICE;
import static cf.service.Checks.thrown;

import java.util.ArrayList;
import java.util.Arrays;
import java.util.Collections;
import java.util.List;
import java.util.concurrent.CyclicBarrier;
import java.util.concurrent.ExecutionException;
import java.util.concurrent.ExecutorService;
import java.util.concurrent.Executors;
import java.util.concurrent.Future;
import java.util.concurrent.TimeUnit;

/** Flows: plans of stages that are begun again for each request, also by several threads at once, and their faults. */
final class FlowsTest {
    private FlowsTest() {}

    static void flows() throws Exception {
        Flow flow = new Flow("order");
        Flow.Step<Integer> number = flow.<Integer>promise().named("number"), discount = flow.promise();
        Flow.Step<String> user = number.thenApply(k -> "user " + k).async().named("user");
        Flow.Step<Integer> price = flow.supplyAsync(() -> 100);
        Flow.Step<Integer> net = price.thenCombine(discount, (a, b) -> a - b);
        Flow.Step<String> total = user.thenCombine(net, (a, b) -> a + " pays " + b);
        Flow.Step<String> safe = total.thenCompose(text -> SERVICE.supplyAsync(() -> text + "!")).exceptionally(error -> "none");
        Flow.Step<Void> all = flow.allOf(user, net, safe, flow.allOf());
        Flow.Step<Object> any = flow.anyOf(flow.promise(), user);
        List<Request> begun = new ArrayList<>();
        for (int k = 0; k < 200; k++) {
            begun.add(SERVICE.start(flow, k, k));
        }
        for (int k = 0; k < 200; k++) {
            Request begunRequest = begun.get(k);
            begunRequest.stage(all).get(20, TimeUnit.SECONDS);
            is(begunRequest.stage(safe).join(), "user " + k + " pays " + (100 - k) + "!");
            is(begunRequest.stage(any).join(), "user " + k);
            is(begunRequest.stage(safe).thenApply(String::length).join(), begunRequest.stage(safe).join().length());
            is(begunRequest.stage(total) == begunRequest.stage(total) || begunRequest.stage(total).isDone(), true);
            begunRequest.close();
            is(begunRequest.stage(net).join(), 100 - k);
            is(begunRequest.history().toString().contains("0 number ends: " + k), true);
        }
        Request open = SERVICE.start(flow);
        is(open.stage(total).isDone(), false);
        open.stage(number).complete(1);
        open.stage(discount).completeExceptionally(new IllegalStateException());
        is(open.stage(safe).get(20, TimeUnit.SECONDS), "none");
        // More steps are ready at once than one call of the machine brings.
        Flow wide = new Flow("wide");
        Flow.Step<?>[] many = new Flow.Step<?>[200];
        for (int k = 0; k < many.length; k++) {
            many[k] = wide.supplyAsync(() -> 1);
        }
        Flow.Step<Void> every = wide.allOf(many);
        SERVICE.start(wide).stage(every).get(20, TimeUnit.SECONDS);
    }

    static void flowFaults() {
        Flow flow = new Flow("flow"), other = new Flow("other");
        Flow.Step<Integer> step = flow.promise(), foreign = other.promise();
        thrown(IllegalArgumentException.class, () -> step.thenCombine(foreign, (a, b) -> a));
        thrown(IllegalArgumentException.class, () -> SERVICE.start(flow, 1, 2));
        Request begunRequest = SERVICE.start(flow, 1);
        thrown(IllegalStateException.class, flow::promise);
        thrown(IllegalStateException.class, step::async);
        thrown(IllegalStateException.class, () -> step.named("late"));
        Flow wide = new Flow("wide");
        Flow.Step<?>[] steps = new Flow.Step<?>[1000];
        for (int k = 0; k < 1000; k++) {
            steps[k] = wide.promise();
        }
        for (int k = 0; k < 16; k++) {
            wide.allOf(steps);
        }
        thrown(RequestFullException.class, () -> wide.allOf(steps));
        Stage<?> ends = SERVICE.start(wide).stage(steps[0]);
        for (int k = 0; k < 192; k++) {
            ends = ends.copy();
        }
        thrown(RequestFullException.class, ends::copy);
        Flow named = new Flow("named");
        Flow.Step<Integer> firstStep = named.<Integer>promise().named("first");
        is(SERVICE.start(named).stage(firstStep).toString().contains("0 first: Not completed"), true);
        thrown(IllegalArgumentException.class, () -> begunRequest.stage(foreign));
        thrown(IllegalArgumentException.class, () -> SERVICE.request().stage(step));
        Flow full = new Flow("full");
        for (int k = 0; k < 4096; k++) {
            full.promise();
        }
        thrown(RequestFullException.class, full::promise);
        Request most = SERVICE.start(full, 1);
        thrown(RequestFullException.class, most::promise);
    }

    /** Several threads start a flow that nobody has started yet: it gets one plan, and each request is whole. */
    static void startedTogether() throws Exception {
        int threads = 4;
        ExecutorService pool = Executors.newFixedThreadPool(threads);
        for (int round = 0; round < 40; round++) {
            Flow flow = new Flow("together");
            Flow.Step<Integer> firstStep = flow.promise();
            Flow.Step<Integer> lastStep = firstStep;
            for (int k = 0; k < 400; k++) {
                lastStep = k % 7 == 0 ? lastStep.thenApply(x -> x + 1).async() : lastStep.thenApply(x -> x + 1);
            }
            Flow.Step<Integer> end = lastStep.thenCombine(flow.supplyAsync(() -> 1), Integer::sum);
            CyclicBarrier together = new CyclicBarrier(threads);
            List<Machine.Plan> plans = Collections.synchronizedList(new ArrayList<>());
            List<Future<?>> ends = new ArrayList<>();
            for (int t = 0; t < threads; t++) {
                int who = t;
                ends.add(pool.submit(() -> {
                    together.await();
                    try (Request begunRequest = INLINE.start(flow, who)) {
                        is(begunRequest.stage(end).get(20, TimeUnit.SECONDS), 401 + who);
                        plans.add(flow.plan());
                        is(begunRequest.history().stages(), 403);
                    }
                    thrown(IllegalStateException.class, flow::promise);
                    return null;
                }));
            }
            for (Future<?> each : ends) {
                each.get(60, TimeUnit.SECONDS);
            }
            is(Collections.frequency(plans, flow.plan()), threads);
        }
        pool.shutdown();
    }

    /** Whatever a function, a supplier or an executor of a flow throws, its stage ends by it, and the others go on. */
    static void flowErrors() throws Exception {
        ExecutorService pool = Executors.newFixedThreadPool(2);
        for (Service service : Arrays.asList(INLINE, new Service(pool))) {
            Flow flow = new Flow("errors");
            Flow.Step<Integer> firstStep = flow.promise();
            List<Flow.Step<Integer>> fail = new ArrayList<>();
            List<Class<?>> by = new ArrayList<>();
            fail.add(flow.supplyAsync(() -> {
                throw new AssertionError("supplier");
            }));
            by.add(AssertionError.class);
            fail.add(firstStep.thenApply(x -> {
                throw new StackOverflowError();
            }));
            by.add(StackOverflowError.class);
            fail.add(firstStep.<Integer>thenApply(x -> {
                throw new LinkageError();
            }).async());
            by.add(LinkageError.class);
            fail.add(firstStep.thenCompose(x -> {
                throw new ThreadDeath();
            }));
            by.add(ThreadDeath.class);
            fail.add(firstStep.thenCompose(x -> null));
            by.add(NullPointerException.class);
            fail.add(firstStep.<Integer>thenApply(x -> x).async(act -> {
                throw new OutOfMemoryError("no thread");
            }));
            by.add(OutOfMemoryError.class);
            fail.add(flow.<Integer>supplyAsync(() -> 1).async(act -> {
                throw new InternalError();
            }));
            by.add(InternalError.class);
            Flow.Step<Integer> lastStep = firstStep.thenApply(x -> x + 1), async = firstStep.thenApply(x -> x + 2).async();
            List<Flow.Step<String>> told = new ArrayList<>();
            for (Flow.Step<Integer> each : fail) {
                told.add(each.handle((x, error) -> "told"));
            }
            Request begunRequest = service.start(flow, 1);
            is(begunRequest.stage(lastStep).get(20, TimeUnit.SECONDS) + begunRequest.stage(async).get(20, TimeUnit.SECONDS), 5);
            for (int k = 0; k < fail.size(); k++) {
                Stage<Integer> stage = begunRequest.stage(fail.get(k));
                is(thrown(ExecutionException.class, () -> stage.get(20, TimeUnit.SECONDS)).getCause().getClass(), by.get(k));
                is(begunRequest.stage(told.get(k)).get(20, TimeUnit.SECONDS), "told");
            }
        }
        pool.shutdown();
    }

    static void emptyFlow() {
        Flow flow = new Flow("empty");
        Request begunRequest = INLINE.start(flow);
        is(begunRequest.history().events() + begunRequest.history().stages(), 0);
        Stage<Integer> promise = begunRequest.promise(), lastStep = promise;
        for (int k = 0; k < 40; k++) {
            lastStep = lastStep.thenApply(x -> x + 1);
        }
        is(promise.complete(5), true);
        is(lastStep.join(), 45);
        begunRequest.close();
        is(INLINE.start(flow).failedFuture(new IllegalStateException()).isCompletedExceptionally(), true);
        thrown(IllegalArgumentException.class, () -> INLINE.start(flow, 1));
        Flow most = new Flow("most");
        for (int k = 0; k < 4095; k++) {
            most.promise();
        }
        Flow.Step<Integer> step = most.new Step<>(0);
        thrown(RequestFullException.class, () -> step.thenCompose(x -> null));
        is(INLINE.start(most).history().stages(), 4095);
    }
}
